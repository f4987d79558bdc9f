"""A picture of the page that turns a yard: python3 host/python/tests/picture.py YARD PICTURE.png.

The yard is dragged a little, and a place is clicked where a part hides the line of another.
"""
import pathlib
import re
import subprocess
import sys
import time

sys.path.insert(0, str(pathlib.Path(__file__).resolve().parents[1]))

from tests import browser

# asks of places all over the sheet; of the pairs of a line's part and the one part that hides it the most frequent counts
CLICK = """
    const box = canvas.getBoundingClientRect(), found = {};
    for (let x = 0.1; x < 0.9; x += 0.02) for (let y = 0.1; y < 0.9; y += 0.03) {
        const told = await (await post("why", {...camera(), at: [x * yard.width, y * yard.height], within: 4})).json();
        if (told.by && told.by !== told.line && !told.said.includes(";")) (found[told.said] ||= []).push(told.spot);
    }
    const spots = Object.values(found).sort((a, b) => b.length - a.length)[0], [x, y] = spots[Math.floor(spots.length / 2)];
    return [box.left + x * box.width / yard.width, box.bottom - y * box.height / yard.height];"""


def main():
    yard, picture = sys.argv[1:]
    program = subprocess.Popen([sys.executable, "-m", "larnt", "turn", yard], stdout=subprocess.PIPE, text=True)
    try:
        address = re.search(r"http\S+", program.stdout.readline())[0]
        window = browser.Browser(1000, 860)
        try:
            window.go(address)
            time.sleep(1)
            window.drag(window.middle("#sheet"), (-20, 0), (-20, -5))
            time.sleep(1)
            window.click(*window.run(CLICK))
            time.sleep(1)
            pathlib.Path(picture).write_bytes(window.picture())
            print(f"{picture}: {window.run('return document.getElementById(`said`).textContent')}")
        finally:
            window.close()
    finally:
        program.terminate()
        program.wait()


if __name__ == "__main__":
    main()
