"""Looks at pictures and pages of linkdraw in a browser: `python3 tests/pictures.py bin/linkdraw [FOLDER]`.

Runs of 2, 12 and 64 peers are drawn, and opened in Chromium 400, 1000 and 1800 pixels wide, on a light page and on a dark
one. Texts that overlap or leave the page, colours that are not those of the page, and a legend with another red than the
rows are errors. FOLDER gets the screenshots. Without Chromium nothing is looked at, and a line says so.
"""
import html
import json
import os
import random
import re
import shutil
import subprocess
import sys
import tempfile

WIDTHS = (400, 1000, 1800)
BROWSERS = ("chromium", "chromium-browser", "google-chrome")

# Notes each text, of an SVG or on a canvas, with its box; then leaves these alone in the page.
PROBE = """<script>
const drawn=[],put=CanvasRenderingContext2D.prototype.fillText,wipe=CanvasRenderingContext2D.prototype.setTransform;
CanvasRenderingContext2D.prototype.setTransform=function(...a){drawn.length=0;return wipe.apply(this,a)};
CanvasRenderingContext2D.prototype.fillText=function(t,x,y,most){
  const m=this.measureText(t),w=Math.min(most||1e9,m.width);
  const left=x-({center:w/2,right:w}[this.textAlign]||0);
  drawn.push([t,left,y-m.actualBoundingBoxAscent,left+w,y+m.actualBoundingBoxDescent]);
  return put.call(this,t,x,y,most)};
// What the page says once it is zoomed, told a peer, and pointed at in its last row.
function act(c){
  const all=word.textContent,many=R.length;zoom(.5,0);const half=word.textContent;zoom(2);
  peers.value='0,1';peers.oninput();const few=R.length,last=R[R.length-1];
  show((c.clientWidth+L)/8+L,last.y+last.h/2,50,50);
  return {all,half,many,few,tip:[...tip.querySelectorAll('th,td')].map(e=>e.textContent)}}
addEventListener('load',()=>setTimeout(()=>{
  const c=document.querySelector('canvas'),r=c?c.getBoundingClientRect():{left:0,top:0};
  const found=drawn.map(([t,x,y,u,v])=>[t,r.left+x,r.top+y,r.left+u,r.top+v]);
  for(const e of document.querySelectorAll('svg text, h1, button, #bar span, #key>span')){
    const b=e.getBoundingClientRect(),cut=e.matches('svg text')?b.height*.18:2;
    found.push([e.textContent,b.left,b.top+cut,b.right,b.bottom-cut])}
  const box=document.querySelector('svg.b,svg rect.b'),page=getComputedStyle(box||document.body);
  const all={width:innerWidth,height:document.documentElement.scrollHeight,wide:document.documentElement.scrollWidth,
    colour:box?page.fill:page.backgroundColor,texts:found,acts:c?act(c):null,
    reds:c?[getComputedStyle(document.querySelectorAll('#key i')[1]).backgroundColor,css('--u')]:null};
  document.documentElement.innerHTML='<body><pre>found '+JSON.stringify(all).replace(/</g,'&lt;')+' end</pre></body>';
},50))</script>"""


def script(peers):
    """A run of so many peers: for two, caps that change, a stall, a drop; else all to all, twice."""
    chance = random.Random(peers)
    if peers == 2:
        yield from (
            "limit 0 1 1000 -", "limit 0 2 2000 1500", "enqueue 0 1 2 0 1000 500000000 1", "enqueue 0 1 2 1 500 0 0",
            "enqueue 200000000 2 1 0 3000 20000000 1", "advance 1200000000", "limit 1200000000 1 0 -",
            "advance 1700000000", "limit 1700000000 1 4000 -", "enqueue 1800000000 1 2 7 700 0 1", "next", "advance 9000000000",
        )
        return
    for peer in range(peers):
        yield f"limit 0 {peer} {chance.choice((500000, 1000000))} {chance.choice(('-', 800000))}"
    now = 0
    for _ in range(2):
        for origin in range(peers):
            for recipient in range(peers):
                if origin != recipient:
                    latency = chance.randrange(1000000, 80000000)
                    size = 4000000 // peers // peers + chance.randrange(3) * 1000
                    yield f"enqueue {now} {origin} {recipient} 0 {size} {latency} 1"
        now += 400000000
        yield f"advance {now}"
    yield "advance 9000000000"


def browse(browser, page, width, height, dark, *arguments):
    """What the browser prints for a page."""
    words = [browser, "--headless", "--no-sandbox", "--disable-gpu", "--hide-scrollbars", f"--window-size={width},{height}",
             f"--blink-settings=preferredColorScheme={0 if dark else 1}", "--virtual-time-budget=4000", *arguments, f"file://{page}"]
    return subprocess.run(words, stdout=subprocess.PIPE, stderr=subprocess.DEVNULL, timeout=240, check=False).stdout.decode()


def framed(text, is_page, width):
    """The page to open: as it is, or an SVG in a page of its own; narrow ones as wide as they say."""
    if not is_page:
        text = f"<!doctype html><meta charset=utf-8><body style='margin:0;width:{width}px'>{text}"
        return text.replace("<svg ", PROBE + "<svg ", 1), text
    return text.replace("<script>", PROBE + "<script>", 1), text


def faults(found, width, dark, is_page):
    """What is wrong with what was found."""
    low = min(int(part) for part in re.findall(r"\d+", found["colour"])[:3])
    if (low < 128) != dark:
        yield f"the page is {found['colour']}"
    if is_page and found["wide"] > width + 1:
        yield f"the page is {found['wide']} wide"
    if is_page:
        legend, rows = (re.findall(r"\d+", red) for red in found["reds"])
        if legend != rows:
            yield f"the red of the legend is {legend}, and that of the rows {rows}"
        acts = found["acts"]
        if acts["all"] == acts["half"] or acts["few"] > acts["many"] or acts["tip"][:3] != ["pair", "channel", "size"]:
            yield f"zoom, choice and pointing: {acts}"
    texts = found["texts"]
    if len(texts) < 10:
        yield f"only {len(texts)} texts"
    for text, left, top, right, bottom in texts:
        if left < -1 or right > width + 1 or top < -1 or bottom > found["height"] + 1:
            yield f"{text!r} leaves the page"
    texts.sort(key=lambda one: one[2])
    for at, one in enumerate(texts):
        for other in texts[at + 1:]:
            if other[2] >= one[4]:
                break
            if min(one[3], other[3]) - max(one[1], other[1]) > 1 and min(one[4], other[4]) - max(one[2], other[2]) > 1:
                yield f"{one[0]!r} and {other[0]!r} overlap"


def look(browser, linkdraw, folder):
    """Looks at each picture and page. Answers how many faults there are."""
    count = 0
    for peers in (2, 12, 64):
        lines = "\n".join(script(peers)) + "\n"
        for is_page in (False, True):
            words = [linkdraw, "--title", f"{peers} peers, all to all"] + ["--page"] * is_page
            text = subprocess.run(words, input=lines.encode(), stdout=subprocess.PIPE, check=True).stdout.decode()
            kind = "page" if is_page else "picture"
            if not is_page:
                high = int(re.search(r'viewBox="0 0 \d+ (\d+)"', text)[1]) // 2
                most = 1200 if peers <= 12 else 4000
                if high > most:
                    print(f"{kind} of {peers} peers: {high} pixels high at 1000")
                    count += 1
            for width in WIDTHS:
                for dark in (False, True):
                    count += look_once(browser, folder, text, (kind, peers, width, dark), is_page)
    return count


def look_once(browser, folder, text, name, is_page):
    """Looks at a picture or a page at one width. Answers how many faults there are."""
    kind, peers, width, dark = name
    probed, plain = framed(text, is_page, width)
    path = os.path.join(folder, "page.html")
    with open(path, "w", encoding="utf-8") as file:
        file.write(probed)
    printed = browse(browser, path, width, 800, dark, "--dump-dom")
    match = re.search(r"found (\{.*\}) end", printed, re.S)
    title = f"{kind} of {peers} peers, {width} pixels, {'dark' if dark else 'light'}"
    if not match:
        print(f"{title}: the browser says nothing")
        return 1
    found = json.loads(html.unescape(match[1]))
    wrong = list(faults(found, found["width"] if is_page else width, dark, is_page))
    for fault in wrong[:5]:
        print(f"{title}: {fault}")
    with open(path, "w", encoding="utf-8") as file:
        file.write(plain)
    shot = os.path.join(folder, f"{kind}-{peers}-{width}-{'dark' if dark else 'light'}.png")
    browse(browser, path, width, min(found["height"], 8000), dark, f"--screenshot={shot}")
    return len(wrong)


def main():
    """Finds a browser and looks."""
    browser = next((path for path in map(shutil.which, BROWSERS) if path), None)
    if browser is None:
        print("pictures: there is no chromium here, so nothing was looked at")
        return 0
    with tempfile.TemporaryDirectory() as made:
        folder = sys.argv[2] if len(sys.argv) > 2 else made
        os.makedirs(folder, exist_ok=True)
        count = look(browser, sys.argv[1], os.path.abspath(folder))
    print(f"pictures: {count} faults" if count else "pictures: texts keep apart, and nothing leaves its page")
    return 1 if count else 0


if __name__ == "__main__":
    sys.exit(main())
