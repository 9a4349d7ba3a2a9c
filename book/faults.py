"""What must hold of the page: every link has its target, no anchor stands twice, nothing is fetched, and it is not too large."""
from html.parser import HTMLParser
from urllib.parse import unquote

MOST = 3_000_000
VOID = {"meta", "input", "br", "link", "img", "hr"}


class Links(HTMLParser):
    def __init__(self):
        super().__init__(convert_charrefs=True)
        self.links, self.anchors, self.twice, self.foreign, self.open, self.crossed = set(), set(), [], [], [], []

    def handle_starttag(self, tag, attributes):
        if tag not in VOID:
            self.open.append(tag)
        for name, value in attributes:
            if name == "id":
                if value in self.anchors:
                    self.twice.append(value)
                self.anchors.add(value)
            elif name == "href" and value.startswith("#"):
                self.links.add(value[1:])
            elif name in ("href", "src", "srcset", "action", "data"):
                self.foreign.append(value)

    def handle_endtag(self, tag):
        if tag in VOID:
            return
        if not self.open or self.open[-1] != tag:
            self.crossed.append(f"{tag} at line {self.getpos()[0]}")
        else:
            self.open.pop()


def faults(page):
    links = Links()
    links.feed(page)
    lost = [x for x in sorted(links.links) if x not in links.anchors and unquote(x) not in links.anchors]
    out = [f"a link has no target: #{x}" for x in lost]
    out += [f"an anchor stands twice: {x}" for x in links.twice]
    out += [f"something is fetched: {x}" for x in links.foreign]
    out += [f"tags cross: {x}" for x in links.crossed[:5]]
    if links.open:
        out.append(f"tags not closed: {links.open[:5]}")
    if "@import" in page or "url(" in page:
        out.append("the style fetches something")
    if len(page.encode("utf-8")) > MOST:
        out.append(f"larger than {MOST} bytes")
    return out
