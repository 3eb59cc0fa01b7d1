"""Streams of PDUs as PS3.8 has them, and what decode must say of them. The console and the gateway take turns; the responses
are those of the archive (host/samples/association.txt is this association)."""
import struct

from wire import (BOX, C_ECHO, EXPLICIT, FILM, IMPLICIT, N_ACTION, N_CREATE, N_DELETE, N_SET, SESSION, VERIFICATION, command,
                  elements, fragment, text, u16, uid)

META, LUT = b"1.2.840.10008.5.1.1.9", b"1.2.840.10008.5.1.1.23"
IMPLICIT_VR, EXPLICIT_VR = b"1.2.840.10008.1.2", b"1.2.840.10008.1.2.1"
ASSOCIATE_RQ, ASSOCIATE_AC, ASSOCIATE_RJ, DATA, RELEASE_RQ, RELEASE_RP, ABORT = range(1, 8)
RESPONSE = 0x8000


def pdu(kind, body=bytes(4)):
    return struct.pack(">BBI", kind, 0, len(body)) + body


def part(kind, body):
    return struct.pack(">BBH", kind, 0, len(body)) + body


def associate(kind, contexts):
    user = part(0x50, part(0x51, struct.pack(">I", 16384)) + part(0x52, b"1.2.3.4"))
    head = struct.pack(">HH", 1, 0) + b"GATEWAY".ljust(16) + b"CONSOLE1".ljust(16) + bytes(32)
    return pdu(kind, head + part(0x10, b"1.2.840.10008.3.1.1.1") + contexts + user)


def proposed(number, abstract, *syntaxes):
    inside = part(0x30, abstract) + b"".join(part(0x40, syntax) for syntax in syntaxes)
    return part(0x20, bytes([number, 0, 0, 0]) + inside)


def answered(number, result, syntax):
    return part(0x21, bytes([number, 0, result, 0]) + part(0x40, syntax))


def request(field, class_uid, message, instance=None, data=True, action=None):
    rows = {0x00000100: u16(field), 0x00000110: u16(message), 0x00000800: u16(0 if data else 0x0101)}
    rows[0x00000002 if field in (N_CREATE, C_ECHO) else 0x00000003] = uid(class_uid)
    if instance:
        rows[0x00001001] = uid(instance)
    if action:
        rows[0x00001008] = u16(action)
    return command(rows)


def response(field, class_uid, message, instance, status=0, data=False, action=None):
    rows = {0x00000002: uid(class_uid), 0x00000100: u16(RESPONSE + field), 0x00000120: u16(message),
            0x00000800: u16(1 if data else 0x0101), 0x00000900: u16(status), 0x00001000: uid(instance)}
    if action:
        rows[0x00001008] = u16(action)
    return command(rows)


def picture(position, rows, columns, pixels):
    return elements([(0x20200010, "US", u16(position)), (0x20200110, "SQ", [[
        (0x00280002, "US", u16(1)), (0x00280004, "CS", text("MONOCHROME2")), (0x00280010, "US", u16(rows)),
        (0x00280011, "US", u16(columns)), (0x00280034, "IS", b"1\\1 "), (0x00280100, "US", u16(8)),
        (0x00280101, "US", u16(8)), (0x00280102, "US", u16(7)), (0x00280103, "US", u16(0)),
        (0x7FE00010, "OW", pixels)]])], EXPLICIT)


def referenced(class_uid, instance):
    return [(0x00081150, "UI", uid(class_uid)), (0x00081155, "UI", uid(instance))]


NEW_SESSION = elements([(0x20000010, "IS", b"2 "), (0x20000030, "CS", text("BLUE FILM")), (0x20000060, "IS", b"0 "),
                        (0x21000160, "SH", text("RADIOLOGY"))], EXPLICIT)
NEW_FILM = elements([(0x20100010, "ST", text("STANDARD\\1,2")), (0x20100040, "CS", text("PORTRAIT")),
                     (0x20100050, "CS", text("14INX17IN")), (0x20100140, "CS", text("NO")),
                     (0x20100500, "SQ", [referenced(SESSION, "1.9.7.100")])], EXPLICIT)
BOXES = elements([(0x20100510, "SQ", [referenced(BOX, "1.9.7.102"), referenced(BOX, "1.9.7.103")])], EXPLICIT)
FULL, SHORT = picture(1, 8, 16, bytes(128)), picture(2, 8, 16, bytes(126))


def turns():
    """Who sends what, in order: 0 is the console."""
    def asks(*pdvs):
        return [(0, pdu(DATA, b"".join(pdvs)))]

    def answers(*pdvs):
        return [(1, pdu(DATA, b"".join(pdvs)))]
    return [
        (0, associate(ASSOCIATE_RQ, proposed(1, META, EXPLICIT_VR, IMPLICIT_VR) + proposed(3, LUT, IMPLICIT_VR))),
        (1, associate(ASSOCIATE_AC, answered(1, 0, EXPLICIT_VR) + answered(3, 3, b""))),
        *asks(fragment(1, 3, request(N_CREATE, SESSION, 1)), fragment(1, 2, NEW_SESSION)),
        *answers(fragment(1, 3, response(N_CREATE, SESSION, 1, "1.9.7.100"))),
        *asks(fragment(1, 3, request(N_CREATE, FILM, 2))), *asks(fragment(1, 2, NEW_FILM)),
        *answers(fragment(1, 3, response(N_CREATE, FILM, 2, "1.9.7.101", data=True))), *answers(fragment(1, 2, BOXES)),
        *asks(fragment(1, 3, request(N_SET, BOX, 3, "1.9.7.102")), fragment(1, 0, FULL[:50])),
        *asks(fragment(1, 0, FULL[50:200])), *asks(fragment(1, 2, FULL[200:])),
        *answers(fragment(1, 3, response(N_SET, BOX, 3, "1.9.7.102"))),
        *asks(fragment(1, 3, request(N_SET, BOX, 4, "1.9.7.103"))), *asks(fragment(1, 2, SHORT)),
        *answers(fragment(1, 3, response(N_SET, BOX, 4, "1.9.7.103", 0x0106))),
        *asks(fragment(1, 3, request(N_ACTION, FILM, 5, "1.9.7.101", False, 1))),
        *answers(fragment(1, 3, response(N_ACTION, FILM, 5, "1.9.7.101", action=1))),
        *asks(fragment(1, 3, request(N_DELETE, SESSION, 6, "1.9.7.100", False))),
        *answers(fragment(1, 3, response(N_DELETE, SESSION, 6, "1.9.7.100"))),
        (0, pdu(RELEASE_RQ)), (1, pdu(RELEASE_RP)),
    ]


def association():
    return b"".join(sent for _, sent in turns())


def console_alone():
    return b"".join(sent for direction, sent in turns() if direction == 0)


def session():
    """N-CREATE of a session in two fragments (host/samples/session.xxd)."""
    data = elements([(0x20000010, "IS", b"100 "), (0x20000020, "CS", text("URGENT")),
                     (0x20000050, "LO", text("0a 1b 2c ab cd 12"))], IMPLICIT)
    return fragment(1, 3, request(N_CREATE, SESSION, 9)) + fragment(1, 2, data)


ECHO = request(C_ECHO, VERIFICATION, 1, data=False)
OTHER_LENGTH = ECHO[:8] + struct.pack("<I", 999) + ECHO[12:]
PRINTER = request(0x0110, "1.2.840.10008.5.1.1.16", 2, "1.2.840.10008.5.1.1.17", False)
TWO_CONTEXTS = pdu(DATA, fragment(3, 3, ECHO)) + pdu(DATA, fragment(1, 3, request(N_CREATE, SESSION, 1)) + fragment(1, 2, NEW_SESSION))

# name, bytes, options, exit status, lines
CASES = [
    ("an association", association(), [], 1, [
        'A-ASSOCIATE-RQ at 0H, 254 bytes, called "GATEWAY", calling "CONSOLE1"\n',
        "  context 1: 1.2.840.10008.5.1.1.9 Basic Grayscale Print Management Meta, 1.2.840.10008.1.2.1 Explicit VR Little "
        "Endian, 1.2.840.10008.1.2 Implicit VR Little Endian\n",
        "  context 1: accepted, 1.2.840.10008.1.2.1 Explicit VR Little Endian\n", "  context 3: abstract syntax not known\n",
        "next serial 100", "open: context 1, explicit VR, by the A-ASSOCIATE-AC\n",
        "gateway: 0000H: session 1.9.7.100 created\n",
        "gateway: 0000H: film 1.9.7.101 created with 2 boxes, 1.9.7.102 to 1.9.7.103\n",
        "gateway: 0000H: box 1.9.7.102 at position 1 has picture 1, 128 bytes of pixels at 144 of the data set\n",
        "gateway: 0106H, check 8: Pixel Data (7FE0,0010) has 126 bytes, and rows by columns by bytes a pixel make 128 (rule 7.10)",
        "response: N-SET-RSP to message ID 4, 0106H [invalid attribute value]; not fed: it is no request (rule 6.14)\n",
        "gateway: 0000H: film 1.9.7.101 queued\n", "gateway: 0000H: session 1.9.7.100 deleted\n",
        "A-RELEASE-RQ at A35H, 10 bytes\nclose: the association is released\n"]),
    ("the console's side alone", console_alone(), ["--serial", "100"], 1, [
        "next serial 100", "gateway: 0000H: film 1.9.7.101 created"]),
    ("another root", association(), ["--root", "1.2.3"], 1, [
        "start: root 1.2.3, next serial 1,", "gateway: 0000H: session 1.2.3.1 created\n",
        "0106H, check 8: Referenced SOP Instance UID (0008,1155) is 1.9.7.100, not 1.2.3.1, the live session (rule 7.3)",
        "where the gateway asked here answered 0106H",
        "0112H, check 6: 1.9.7.102 is not live (rule 6.6); session 1.2.3.1 is, with 0 films [no such SOP instance]"]),
    ("each message alone", association(), ["--alone"], 1, [
        "gateway: 0000H: session 1.9.7.100 created\n", "and no session is live (rule 7.3)",
        "gateway: 0112H, check 6: 1.9.7.103 is not live (rule 6.6); nothing is [no such SOP instance]\n"
        "         also: were it live, check 8 would give 0106H: Pixel Data (7FE0,0010) has 126 bytes"]),
    ("as given", association(), ["-i"], 1, [
        "open: context 1, implicit VR, as given\n", "(in explicit VR it would be read whole)\ngateway: 0110H, check 5"]),
    ("a small buffer", pdu(DATA, fragment(1, 3, request(N_CREATE, SESSION, 1)) + fragment(1, 2, bytes(4098))),
     ["--buffer", "4096"], 1, ["0213H, check 4: the data set is longer than the message buffer, which has 4096 bytes"]),
    ("group length", pdu(DATA, fragment(1, 3, OTHER_LENGTH)), [], 1, ["gateway: dropped: group length 999, 56 follow (rule 6.12)\n"]),
    ("a bare command set", ECHO, [], 0, ["a command set: it begins with (0000,0000)\n", "gateway: 0000H: echoed\n"]),
    ("a command without its data set", request(N_CREATE, SESSION, 1), [], 0, [
        "gateway: waits: a data set must follow (rule 4.9)\n"]),
    ("a bare data set", NEW_SESSION, [], 0, ["a data set: it begins with an element\n", "explicit VR, guessed: a VR stands behind",
                                             "(2100,0160) SH 10  Owner ID  \"RADIOLOGY \"\n", "read whole, 4 headers\n"]),
    ("a printer's N-GET", fragment(1, 3, PRINTER), [], 1, [
        "gateway: 0211H, check 1: Command Field 0110H, N-GET-RQ is none of the five operations (rule 6.1)"]),
    ("a response alone", fragment(1, 3, response(N_SET, BOX, 3, "1.9.7.102")), [], 0, ["not fed: it is no request (rule 6.14)\n"]),
    ("two contexts", TWO_CONTEXTS, [], 1, [
        "gateway: 0000H: echoed\n", "gateway: refused with 5: the context is 1, and 3 is open (rule 4.2); the association ends",
        "not fed: no association is open\n"]),
    ("an even context", fragment(2, 3, ECHO), [], 1, ["gateway: open is refused with 3: a context is odd", "not fed: no association"]),
    ("one of two contexts", TWO_CONTEXTS, ["--context", "1"], 0, [
        "passed over: it is of another context\n", "gateway: 0000H: session 1.9.7.1 created\n"]),
    ("a stream cut short", association()[:0x1C0], [], 1, ["cut short at 1A9H: the dump has 23 bytes of it\n"]),
    ("a fragment cut short", fragment(1, 3, ECHO)[:-3], [], 1, [
        "gateway: refused with 5: the fragment's length is 70, and 67 bytes follow it (rule 4.2)"]),
    ("control bits", fragment(1, 7, ECHO), [], 1, ["control bits 2 to 7 are set: 07H (rule 4.2)"]),
    ("data of no message", fragment(1, 2, NEW_SESSION), [], 0, ["gateway: ignored: data that belongs to no message (rule 4.11)\n"]),
    ("cut off", fragment(1, 3, request(N_CREATE, SESSION, 1)) + fragment(1, 0, NEW_SESSION[:10]) + fragment(1, 3, ECHO), [], 1, [
        "gateway: cut off: the message before has no last fragment of its data set, and is not answered (rule 4.4)\n",
        "gateway: 0000H: echoed\n"]),
    ("not whole", fragment(1, 1, ECHO[:20]), [], 1, ["command set, not whole, of 20 bytes", "gateway: waits: the last fragment"]),
    ("released within a message", pdu(DATA, fragment(1, 1, ECHO[:12])) + pdu(RELEASE_RQ), [], 0, [
        "gateway: waits: the last fragment of the command set must follow (rule 4.12)\nclose: the association is released\n"]),
    ("rejected and aborted", pdu(ASSOCIATE_RJ, bytes([0, 1, 1, 7])) + pdu(ABORT, bytes([0, 0, 2, 1])), [], 0, [
        "A-ASSOCIATE-RJ at 0H, 10 bytes, result 1, source 1, reason 7\n", "A-ABORT at AH, 10 bytes, source 2, reason 1\n"]),
]
