"""records/, texts/, words/, flat/ and trial/: refused records, spellings, and the other two commands."""
from .plain import KM, plain
from .refusals import READ, text

READINGS = ["read,0,100,100,100,20000,0,0", "read,5,200,200,200,20000,0,0"]

REFUSED_RECORDS = [
    ("unknown-kind", "no kind of record", "speed,1"), ("kind-in-capitals", "a kind in capitals", "READ,5,0,0,0,0,0,0"),
    ("empty-kind", "a record that begins with a comma", ",5"),
    ("field-count", "a field too few", "read,5,0,0,0,0,0"),
    ("count-before-number", "the count comes before a number", "end,x,1"),
    ("not-a-number", "an empty field", "read,5,,0,0,0,0,0"), ("plus", "a plus sign is no part of a number", "read,+5,0,0,0,0,0,0"),
    ("nineteen-digits", "a number of 19 digits", "read,0000000000000000005,0,0,0,0,0,0"),
    ("first-column-first", "of two columns the first is named", "read,5,0,0,0,-1,x,0"),
    ("time-above", "a time above its range", "read,100000001,0,0,0,0,0,0"),
    ("est-above", "an estimated front end above its range", "read,5,110000001,0,110000001,0,0,0"),
    ("min-above-est", "a min safe front end past the estimated one", "read,5,10,11,20,0,0,0"),
    ("max-below-est", "a max safe front end before the estimated one", "read,5,10,10,9,0,0,0"),
    ("speed-above", "a speed of 138,889 mm/s", "read,5,0,0,0,138889,0,0"), ("accel-above", "an acceleration of 301 cm/s²", "read,5,0,0,0,0,301,0"),
    ("under-above", "an under-reading of 10,001 mm/s", "read,5,0,0,0,0,0,10001"),
    ("eoa-above", "an EOA above its range", "end,10000001,10000001,0"), ("svl-below", "an SvL below 0", "end,0,-1,0"),
    ("release-above", "a release speed of 501 km/h", "end,1,1,501"), ("loa-above", "an LOA above its range", "limit,10000001,50"),
    ("limit-of-speed-0", "an LOA of 0 km/h", "limit,100,0"),
    ("identity-above", "an identity of 65,536", "restrict,65536,0,1,5,0"), ("restrict-start-below", "a restriction that starts below 0", "restrict,1,-1,1,5,0"),
    ("restrict-end-above", "a restriction's end above its range", "restrict,1,0,10000001,5,0"),
    ("restrict-speed-0", "a restriction of 0 km/h", "restrict,1,0,1,0,0"), ("delayed-2", "delayed is neither 0 nor 1", "restrict,1,0,1,5,2"),
    ("revoke-below", "a revoked identity below 0", "revoke,-1"),
    ("time-back", "a time below that of the last reading", "read,4,0,0,0,0,0,0"),
    ("before-end", "an SvL before the EOA", "end,500,499,0"), ("beyond-track", "an SvL past the track's end", f"end,0,{10 * KM + 1},0"),
    ("before-end-first", "the order of the ends comes before the track's end", f"end,{11 * KM},{11 * KM - 1},0"),
    ("limit-beyond-track", "an LOA past the track's end", f"limit,{10 * KM + 1},50"),
    ("restriction-empty", "a restriction that ends at its start", "restrict,1,7,7,5,0"),
    ("restriction-beyond-track", "a restriction that ends past the track's end", f"restrict,1,0,{10 * KM + 1},5,0"),
    ("identity-unknown", "none with this identity is held", "revoke,3"),
]


def records():
    for name, shows, line in REFUSED_RECORDS:
        yield name, shows, text(plain(), [*READINGS, line, READ])
    one = "restrict,3,0,9,60,0"
    yield "identity-in-use", "an identity that is held, whatever its places", text(plain(), [one, READINGS[0], "restrict,3,9,9,60,0"])
    yield "identity-free-again", "an identity that was revoked is free; revoked twice it is unknown", text(
        plain(), [one, "revoke,3", one, READINGS[0], "revoke,3", READINGS[1], "revoke,3"])
    many = [f"restrict,{i},0,{10 + i},{50 + i},0" for i in range(32)]
    yield "too-many-restrictions", "a restriction too many, also where its identity is held", text(plain(), [*many, READINGS[0], many[0]])
    yield "one-in-place-of-another", "32 restrictions, one revoked and another set", text(
        plain(), [*many, READINGS[0], "revoke,5", "restrict,99,0,9,5,1", READINGS[1], "restrict,100,0,9,5,1"])
    yield "accepted-ends", "equal times, a restriction and an authority that end with the track, SvL at the EOA", text(plain(), [
        *READINGS, "read,5,300,300,300,1000,0,0", f"restrict,1,{10 * KM - 1},{10 * KM},5,1", f"end,{10 * KM},{10 * KM},0", READINGS[1],
        f"limit,{10 * KM},500", READINGS[1], "end,0,0,0", "read,100000000,-10,-20,0,5,0,0"])


def joined(data, records):
    """A data part and the bytes of records, as they are."""
    return data.encode() + records


def texts():
    data, _, _ = text(plain()).decode().partition("%%")
    lines = "\n".join([*READINGS, READ.replace("read,0", "read,9")]).encode()
    odd = data.replace("length = 10000\n", 'length = 0x2710\n').replace("max_speed = 160", "max_speed = +1_60 # km/h")
    odd = odd.replace("[national]", "national.avadh = 0b10100\n[national]").replace("avadh = 20\n", "", 1)
    inline = "version=1\ntrack = {length = 1_000_000, speed = [{speed = 160, start = 0}]}\n" + data[data.index("[train]"):data.index("[track]")]
    inline += "[authority]\nsvl = 500000\n\"eoa\" = 500000\nkind = 'end'\n"
    for name, shows, made in [
        ("no-line", "no line divides the parts", joined(data, lines)),
        ("line-with-a-space", "a space behind the line", joined(data + "%% \n", lines)),
        ("line-with-a-lone-cr", "a carriage return at the end of the input", joined(data + "%%\r", b"")),
        ("line-within-a-text", "the first such line divides, within a text too", joined('more = """\n%%\n"""\n' + data + "%%\n", lines)),
        ("line-at-the-end", "the end of the input ends the line", joined(data + "%%", b"")),
        ("line-with-crlf", "CR and LF end the line", joined(data.replace("\n", "\r\n") + "%%\r\n", lines)),
        ("not-toml", "no document", joined("version = \n" + data + "%%\n", lines)),
        ("key-twice", "a key given twice", joined("version = 1\n" + data + "%%\n", lines)),
        ("not-utf-8", "bytes that are no text", joined(data, b"# \xff\n%%\n" + lines)),
        ("table-twice", "a table given twice", joined(data + "[track]\n%%\n", lines)),
        ("number-too-great", "an integer of more than 64 bits", joined(data.replace("length = 10000\n", "length = 9223372036854775808\n") + "%%\n", lines)),
        ("number-as-great", "the greatest integer is read, and out of range", joined(data.replace("length = 10000\n", "length = 9223372036854775807\n") + "%%\n", lines)),
        ("byte-order-marks", "a byte order mark before each part is passed over", joined("\ufeff" + data + "%%\n", b"\xef\xbb\xbf" + lines)),
        ("mark-within", "a byte order mark elsewhere is part of its field", joined(data + "%%\n", READINGS[0].encode() + b"\n\xef\xbb\xbf" + lines)),
        ("other-toml", "hexadecimal, binary, signs, underscores, comments, dotted keys", joined(odd + "%%\n", lines)),
        ("inline-toml", "inline tables, another order of keys, keys in quotes", joined(inline + "%%\n", lines)),
        ("quotes", "fields in quotes, line ends of each form, empty lines", joined(data + "%%\n",
         b'"read",0,"100",100,100,20000,"-0",0\r\n\r\n\n"read",5,2"",1,1,0,0,0'.replace(b'2""', b'"2"') + b'\rread,0006,1,-1,"1"0,000,-5,0\n')),
        ("quote-not-closed", "a field without its closing quote goes on to the end", joined(data + "%%\n", READINGS[0].encode() + b'\nrevoke,"1\nread')),
        ("doubled-quote", "a doubled quote is one, and no digit", joined(data + "%%\n", READINGS[0].encode() + b'\nrevoke,"1""2"\n')),
        ("empty-field-in-quotes", "a line of one empty field is a record", joined(data + "%%\n", READINGS[0].encode() + b'\n""\n')),
        ("quote-within", "a quote within a field is a byte like others", joined(data + "%%\n", READINGS[0].encode() + b'\nrevoke,1"2\n')),
        ("no-records", "no record at all", joined(data + "%%\n", b"")),
        ("empty", "an input of no bytes", b""),
    ]:
        yield name, shows, made


def flat():
    lines = ["0,799990,20000", "5,800000,20000", "10,800001,20000", "10,700000,20000", "15,700000,0", "20,1000000,0", "25,1000001,0",
             "30,999999,1", "35,1000000,1", "40,999950,10000", "45,949999,10000", "50,950000,10001", "100000000,110000000,138888",
             "100000000,-10000000,0"]
    body = "\n".join(lines)
    yield "curve", "before, at and past the curve, held, standing, past END", ["flat", "100", "100000"], body.encode() + b"\n"
    yield "thirds", "places that are no whole mm, without the last line end", ["flat", "70", "100000"], \
        b"0,982142,5000\n0,982143,5000\n1,982143,4999\n1,860000,14000\n1,860001,14000"
    yield "least", "the least deceleration and END", ["flat", "5", "0"], b"0,-1000001,10000\n0,-1000000,10000\n0,-999999,10000\n0,0,0\n0,1,0\n"
    yield "no-lines", "an input of no bytes has no lines", ["flat", "0400", "10000000"], b""
    for name, line in [("empty-line", ""), ("two-fields", "1,2"), ("time-back", "4,0,0"), ("cr", "5,0,0\r"), ("speed-above", "5,0,138889"),
                       ("place-below", "5,-10000001,0")]:
        yield name, f"a line that is refused: {name.replace('-', ' ')}", ["flat", "100", "100000"], f"5,100,100\n{line}\n6,0,0\n".encode()


def words():
    for name, given in [("none", []), ("help", ["--help"]), ("flat-4", ["flat", "4", "5"]),
                        ("flat-401", ["flat", "401", "5"]), ("flat-end", ["flat", "5", "10000001"]),
                        ("display-1", ["display", "1"]), ("display-in-capitals", ["Display"]),
                        ("certify-alone", ["certify"]), ("certify-1-2", ["certify", "1", "2"]), ("certify-0", ["certify", "0"]),
                        ("certify-1001", ["certify", "1001"]), ("check-1", ["check", "1"]), ("check-in-capitals", ["Check"]),
                        ("drive-alone", ["drive"]), ("drive-1", ["drive", "1"]), ("drive-1-2-3", ["drive", "1", "2", "3"]),
                        ("drive-in-capitals", ["DRIVE", "1", "2"]), ("drive-65536", ["drive", "65536", "1"]),
                        ("drive-below-0", ["drive", "-1", "1"]), ("drive-0", ["drive", "1", "0"]),
                        ("drive-100001", ["drive", "1", "100001"]), ("drive-plus", ["drive", "+1", "1"]),
                        ("upgrade-1", ["upgrade", "1"]), ("upgrade-in-capitals", ["UPGRADE"]),
                        ("trial-0", ["trial", "1", "0"]), ("trial-100001", ["trial", "1", "100001"])]:
        yield name, f"words that none of the commands has: {' '.join(given) or 'none'}", given, b""


def trial():
    for number, cycles in ((0, 1), (7, 3), (65_535, 400)):
        yield f"of-{number}-and-{cycles}", f"trial {number} {cycles}", ["trial", str(number), str(cycles)], b""
