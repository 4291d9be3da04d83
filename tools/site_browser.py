"""Looks at the site in a browser without a screen: its console, a phone's width, pictures, links and the search."""
import json
import pathlib
import urllib.parse

from browser import Browser, program

PHONE = (390, 844)
# What a page is asked: its width and the window's, pictures that aren't shown, its links, and its anchors.
LOOK = '''(async () => {
  await Promise.all([...document.images].map((it) => it.decode().catch(() => null)));
  const width = document.documentElement.clientWidth;
  const scrolls = (it) => it && it !== document.body
    && (getComputedStyle(it).overflowX !== "visible" || scrolls(it.parentElement));
  const wide = [...document.querySelectorAll("body *")].filter(
    (it) => it.getBoundingClientRect().left + it.scrollWidth > width + 1 && !scrolls(it));
  return {width: document.scrollingElement.scrollWidth, window: width,
          wide: wide.slice(-1).map((it) => `${it.tagName}.${it.className} ${it.textContent.trim().slice(0, 40)}`)[0],
          pictures: [...document.images].filter((it) => !it.complete || !it.naturalWidth).map((it) => it.src),
          links: [...document.links].map((it) => it.href),
          anchors: [...document.querySelectorAll("[id]")].map((it) => it.id)};
})()'''
# Types a question into the search, and clicks the answer that leads to a page; answers whether there was one.
SEARCH = '''(async () => {
  const field = document.getElementById("search"), wait = () => new Promise((go) => setTimeout(go, 20));
  field.focus();
  field.value = QUESTION;
  field.dispatchEvent(new Event("input"));
  for (let left = 3000; left && !document.querySelector(".found li"); left -= 1) { await wait(); }
  const links = [...document.querySelectorAll(".found a")].slice(0, 5);
  const link = links.find((it) => it.href.includes(WANTED));
  if (!link) { return links.map((it) => it.href); }
  setTimeout(() => link.click());
  return null;
})()'''
# Whether the part of a page to which its address leads is shown.
SHOWN = '''(async () => {
  const wait = () => new Promise((go) => setTimeout(go, 20));
  const at = () => document.getElementById(decodeURIComponent(location.hash.slice(1)));
  for (let left = 500; left && !(at() && location.href.includes(WANTED)); left -= 1) { await wait(); }
  const box = at() && at().getBoundingClientRect();
  return {url: location.href, shown: !!box && box.top < innerHeight && box.bottom > -1 && box.width > 0};
})()'''


def is_here():
    """Whether this machine has a browser that can be driven."""
    return program() is not None


def path_of(url):
    """Returns the file and the anchor of a link to a file, or None."""
    parts = urllib.parse.urlsplit(url)
    return (pathlib.Path(urllib.parse.unquote(parts.path)), urllib.parse.unquote(parts.fragment)) \
        if parts.scheme == 'file' else None


def look_at_page(browser, file):
    """Opens a page on a phone; returns what is wrong with it, its links and its anchors."""
    browser.open(file)
    seen = browser.run(LOOK)
    found = [f'the console says: {it}' for it in browser.said]
    found += [f'the picture {it} is not shown' for it in seen['pictures']]
    if seen['width'] > seen['window'] + 1:
        found.append(f"it is {seen['width']} wide on a phone of {seen['window']}: {seen.get('wide', '')}")
    return found, seen['links'], set(seen['anchors'])


def ask(browser, first, question, wanted):
    """Types a question, and follows the answer to the wanted page; returns what is wrong."""
    def filled(code):
        return code.replace('QUESTION', json.dumps(question)).replace('WANTED', json.dumps(wanted))

    browser.open(first)
    browser.loaded = False
    others = browser.run(filled(SEARCH))
    if others is not None:
        return [f'{question}: {wanted} is not among {others}']
    browser.wait()
    end = browser.run(filled(SHOWN))
    found = [f'{question}: the console says {it}' for it in browser.said]
    return found if end['shown'] else [*found, f"{question}: {end['url']} is not shown"]


def faults(folder, pages, questions):
    """Returns of each page, and of the search, what is wrong with it in a browser; nothing where none begins."""
    found, links, anchors = {}, {}, {}
    try:
        begun = Browser()
    except (OSError, EOFError) as why:
        print(f'{program()} does not begin ({why}), so left out: a look in a browser')
        return {}
    with begun as browser:
        browser.size(*PHONE, True)
        for at in pages:
            file = (folder / at).resolve()
            found[at], links[at], anchors[file] = look_at_page(browser, file)
        asked = list(questions.items())
        for name, size, some in (('the search on a phone', (*PHONE, True), asked[:1]),
                                 ('the search in a browser', (1200, 900, False), asked)):
            browser.size(*size)
            found[name] = [fault for question, wanted in some
                           for fault in ask(browser, folder / 'index.html', question, wanted)]
    for at, urls in links.items():
        for file, place in {it for it in map(path_of, urls) if it}:
            if not file.is_file() or place and file in anchors and place not in anchors[file]:
                found[at].append(f'the link to {file.name}#{place} leads nowhere')
    return found
