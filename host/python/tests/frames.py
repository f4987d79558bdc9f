"""Frames a second while a yard is dragged, measured in Chromium: python3 host/python/tests/frames.py [SOLIDS..].

In each round the pointer goes down in the page and moves a little with every picture of the browser, for five seconds;
what counts are the frames of the library that were painted.
"""
import pathlib
import sys
import threading
import time

sys.path.insert(0, str(pathlib.Path(__file__).resolve().parents[1]))

from larnt import sheets, turn
from tests import browser, yards

SECONDS, ROUNDS = 5, 3
DRAG = """
    const box = canvas.getBoundingClientRect(), begun = performance.now(), before = paint, levels = {};
    let frames = 0, pictures = 0, x = box.left + box.width / 2;
    const said = (kind, more) => canvas.dispatchEvent(new PointerEvent(kind, {pointerId: 1, button: 0, clientX: x, clientY: box.top + box.height / 2, ...more}));
    paint = () => { before(); frames++; levels[shown.level] = (levels[shown.level] || 0) + 1 };
    said("pointerdown");
    return new Promise(done => {
        const next = () => {
            pictures++;
            x += Math.floor((performance.now() - begun) / 500) % 2 ? -6 : 6;
            said("pointermove");
            if (performance.now() - begun < 1000 * arguments[0]) requestAnimationFrame(next);
            else { said("pointerup"); paint = before; done([frames, pictures, levels, performance.now() - begun]) }
        };
        requestAnimationFrame(next);
    });"""


def measured(window, solids):
    scene, camera = yards.yard(solids)
    camera = turn.dataclasses.replace(camera, step=0.5 / sheets.Sheet().scale(camera.width, camera.height))
    with turn.Server(turn.Turning(scene, camera, sheets.Sheet())) as server:
        threading.Thread(target=server.serve_forever, daemon=True).start()
        window.go(server.address())
        time.sleep(2)
        for _ in range(ROUNDS):
            frames, pictures, levels, took = window.run(DRAG, SECONDS)
            share = ", ".join(f"{100 * n / frames:.0f}% at level {level}" for level, n in sorted(levels.items()))
            print(f"{solids} solids: {1000 * frames / took:.1f} frames a second, of {1000 * pictures / took:.1f} pictures of the browser; {share}", flush=True)
            time.sleep(1)
        server.shutdown()


def main():
    if not (browser.DRIVER and browser.CHROMIUM):
        sys.exit("there is no Chromium with its driver (Debian: chromium, chromium-driver)")
    window = browser.Browser()
    try:
        for solids in [int(word) for word in sys.argv[1:]] or [100, 500]:
            measured(window, solids)
    finally:
        window.close()


if __name__ == "__main__":
    main()
