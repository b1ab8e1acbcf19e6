"""HTML read strictly: every element is closed in its order, and each attribute is quoted and stands once; no code is shared with nw."""
# SPDX-License-Identifier: MIT
import html.parser
import re

VOID = {'meta', 'br', 'hr', 'img', 'input', 'link', 'wbr'}
SHAPES = {'rect', 'line', 'path', 'circle'}


class Element:
    def __init__(self, name, attributes):
        self.name, self.attributes, self.inside = name, attributes, []

    def get(self, name):
        return self.attributes.get(name)

    def classes(self):
        return (self.get('class') or '').split()

    def all(self, name=None, of_class=None):
        """The elements inside, in their order, of a name or a class."""
        for part in self.inside:
            if isinstance(part, Element):
                if name in (None, part.name) and (of_class is None or of_class in part.classes()):
                    yield part
                yield from part.all(name, of_class)

    def one(self, name=None, of_class=None):
        found = list(self.all(name, of_class))
        assert len(found) == 1, '%s %s: %d of them' % (name, of_class, len(found))
        return found[0]

    def of_id(self, its):
        found = [element for element in self.all() if element.get('id') == its]
        return found[0] if found else None

    def text(self):
        return ''.join(part if isinstance(part, str) else part.text() for part in self.inside)


class Strict(html.parser.HTMLParser):
    def __init__(self):
        super().__init__(convert_charrefs=False)
        self.root = Element('', {})
        self.open = [self.root]
        self.ids = set()

    def begin(self, name, attributes, raw):
        names = [pair[0] for pair in attributes]
        assert len(set(names)) == len(names) and None not in [pair[1] for pair in attributes], raw
        assert len(re.findall(r'="[^"<]*"', raw)) == len(names), 'an attribute is not quoted: ' + raw
        element = Element(name, dict(attributes))
        its = element.get('id')
        assert its is None or its not in self.ids, 'two elements have the id %s' % its
        self.ids.add(its)
        self.open[-1].inside.append(element)
        return element

    def handle_starttag(self, tag, attrs):
        element = self.begin(tag, attrs, self.get_starttag_text())
        if tag not in VOID:
            self.open.append(element)

    def handle_startendtag(self, tag, attrs):
        assert tag in SHAPES, '<%s/>' % tag
        self.begin(tag, attrs, self.get_starttag_text())

    def handle_endtag(self, tag):
        assert len(self.open) > 1 and self.open[-1].name == tag, '</%s> in %s' % (tag, self.open[-1].name)
        self.open.pop()

    def handle_data(self, data):
        assert '&' not in data and '<' not in data or self.open[-1].name == 'style', 'bare: %.40r' % data
        self.open[-1].inside.append(data)

    def handle_entityref(self, name):
        self.open[-1].inside.append({'amp': '&', 'lt': '<', 'gt': '>', 'quot': '"', 'times': '\u00D7'}[name])

    def handle_charref(self, name):
        self.open[-1].inside.append(chr(int(name[1:], 16)))


def read(data):
    """The tree of a page; an assertion fails where it is not as it should be."""
    text = data.decode('utf-8')
    assert not any(ord(c) < 0x20 and c != '\n' or 0x7F <= ord(c) < 0xA0 for c in text), 'a control character'
    parser = Strict()
    parser.feed(text)
    parser.close()
    assert len(parser.open) == 1, '%s is not closed' % parser.open[-1].name
    return parser.root


def needs_nothing(root):
    """Asserts that a page runs nothing and asks for nothing: no script, nothing that is loaded, and links inside the page that lead somewhere."""
    ids = {element.get('id') for element in root.all()}
    for element in root.all():
        assert element.name not in ('script', 'link', 'img', 'iframe', 'object', 'embed', 'base', 'form'), element.name
        for name, value in element.attributes.items():
            assert not name.startswith('on') and name not in ('src', 'style', 'xlink:href'), (element.name, name)
            assert name != 'href' or value[0] == '#' and value[1:] in ids, 'a link to ' + value
    style = root.one('style').text()
    assert 'url(' not in style and '@import' not in style, 'the style loads something'
