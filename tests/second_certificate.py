"""The second program for the certificate table, which shares no code with the library: a body read, asked for its fields, written."""
# SPDX-License-Identifier: MIT
import itertools

from calls import Refused

KIND = 0xFC
MOST_BODY = 1045504


# ---- reading: what stands from a place on, and the place after it


def number(body, at, width):
    if at + width > len(body):
        raise Refused(14, place=at)
    return int.from_bytes(body[at:at + width], 'big'), at + width


def part(body, at, width):
    """A length and so many bytes: where they begin, and how many they are."""
    length, begin = number(body, at, width)
    if begin + length > len(body):
        raise Refused(14, place=at)
    return (begin, length), begin + length


def parts(body, at, width):
    """An 8-bit count and so many parts."""
    count, at = number(body, at, 1)
    found = []
    for _ in range(count):
        one, at = part(body, at, width)
        found.append(one)
    return found, at


def fields(kind, body):
    """The authorization lists, the certificates, the signature."""
    if kind != KIND:
        raise Refused(2)
    if len(body) > MOST_BODY:
        raise Refused(22)
    lists, at = parts(body, 0, 2)
    certificates, at = parts(body, at, 1)
    signature, at = part(body, at, 2)
    if at != len(body):
        raise Refused(16, place=at)
    return lists, certificates, signature


# ---- writing


def form(pool, tape):
    """What a tape asks for, as byte strings. What is wrong is refused at the entry where it begins."""
    at = 0

    def taken(width):
        nonlocal at
        if at + width > len(tape):
            raise Refused(19, place=at)
        at += width
        return tape[at - width:at]

    def span():
        place, (begin, length) = at, taken(2)
        if begin + length > len(pool):
            raise Refused(19, place=place)
        return pool[begin:begin + length]

    def spans():
        (left,), found = taken(1), []
        while len(found) < left:
            found.append(span())
        return found

    asked = spans(), spans(), span()
    if at < len(tape):
        raise Refused(19, place=at)
    return asked


def counted(value, width):
    """A count or length in its field."""
    if value >= 256 ** width:
        raise Refused(22)
    return value.to_bytes(width, 'big')


def written(lists, certificates, signature):
    """The body of these fields."""
    body = b''.join((
        counted(len(lists), 1), *(counted(len(data), 2) + data for data in lists),
        counted(len(certificates), 1), *(counted(len(data), 1) + data for data in certificates),
        counted(len(signature), 2) + signature))
    if len(body) > MOST_BODY:
        raise Refused(22)
    return body


# ---- the calls


def answered(span):
    """As the library answers with a part: no refusal; where it begins, above 24 bits of length."""
    begin, length = span
    return 0, begin * 2**24 + length


def certificate_read(kind, body):
    lists, certificates, signature = fields(kind, body)
    counted_lists = (0, len(lists)), *map(answered, lists)
    counted_certificates = (0, len(certificates)), *map(answered, certificates)
    return 0, *itertools.chain(*counted_lists, *counted_certificates, answered(signature))


def one_of(found, i):
    if i >= len(found):
        raise Refused(19)
    return answered(found[i])[1]


def certificate_authorization(body, i):
    return one_of(fields(KIND, body)[0], i)


def certificate_certificate(body, i):
    return one_of(fields(KIND, body)[1], i)


def certificate_measure(pool, tape):
    return len(written(*form(pool, tape)))


def certificate_write(pool, tape, out):
    try:
        body = written(*form(pool, tape))
        if len(body) > len(out):
            raise Refused(21)
    except Refused as refusal:
        raise Refused(*refusal.args, out)
    return len(body), body + out[len(body):]


def certificate_lay(kind, body, tape):
    try:
        lists, certificates, signature = fields(kind, body)
        laid = [len(lists), *itertools.chain(*lists), len(certificates), *itertools.chain(*certificates), *signature]
        if len(laid) > len(tape):
            raise Refused(21)
    except Refused as refusal:
        raise Refused(*refusal.args, tape, place=refusal.place)
    return len(laid), laid + tape[len(laid):]
