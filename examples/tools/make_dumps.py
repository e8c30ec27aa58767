"""Writes the cases of `dump`: images built byte by byte after docs/FORMATS.md, and what is printed of them, each written out here.

Run it in the folder examples: python3 tools/make_dumps.py
"""
import hashlib
import os
import shutil
import struct

CASES = "cases"
DAY = 1704067200000
HOUR = 3600000
USAGE = "usage: druid-node run [--workers N] | load [--workers N] SPEC QUERY FILE.. | dump FILE\n"


def sealed(body):
    """The bytes with their length put in and their digest behind them."""
    body = body[:8] + struct.pack("<Q", len(body) + 32) + body[16:]
    return body + hashlib.sha256(body).digest()


def words(numbers):
    return b"".join(struct.pack("<I", it) for it in numbers)


def longs(numbers):
    return b"".join(struct.pack("<q", it) for it in numbers)


def ends(parts):
    return [sum(len(it) for it in parts[: i + 1]) for i in range(len(parts))]


class Image:
    """An image of rows, each a time, dimension values and metrics. A part that is set stands in the place of the right one."""

    def __init__(self, rows, first=0, last=None, rollup=True, chunk=DAY, version=1):
        self.rows, self.first, self.rollup, self.chunk, self.version = rows, first, rollup, chunk, version
        self.last = len(rows) if last is None else last
        self.times = [it[0] for it in rows]
        self.metrics = [[row[2][m] for row in rows] for m in range(len(rows[0][2]))]
        self.dims = [self.dimension([row[1][d].encode() for row in rows]) for d in range(len(rows[0][1]))]

    def dimension(self, values):
        texts = sorted(set(values))
        numbers = [texts.index(it) for it in values]
        lists = [[i for i, n in enumerate(numbers) if n == v] for v in range(len(texts))]
        return {"texts": texts, "numbers": numbers, "lists": lists}

    def bytes(self):
        body = b"DRSG" + struct.pack("<HHQqQQHHI", self.version, int(self.rollup), 0, self.chunk, self.first, self.last,
                                     len(self.dims), len(self.metrics), len(self.rows))
        body += longs(self.times) + b"".join(map(longs, self.metrics))
        for it in self.dims:
            text = b"".join(it["texts"])
            body += words([len(it["texts"]), len(text)]) + words(ends(it["texts"])) + text + words(it["numbers"])
            body += words(ends(it["lists"])) + words(sum(it["lists"], []))
        return sealed(body)


def one_row():
    return Image([(DAY, ["A"], [])])


def two_rows():
    return Image([(DAY, ["A", "en"], [2, 12, 5, 7]), (DAY + HOUR, ["B", "en"], [1, -2, -2, -2])], last=3)


def changed(image, change):
    change(image)
    return image.bytes()


def write(path, text):
    with open(path, "wb") as it:
        it.write(text)


def case(name, arguments, files, out="", err="", status=0):
    """One case: the words of the program, the files where it runs, and what is wanted."""
    beside = f"{CASES}/{name}"
    shutil.rmtree(f"{beside}.files", ignore_errors=True)
    for file, text in files.items():
        path = f"{beside}.files/{file}"
        os.makedirs(os.path.dirname(path), exist_ok=True)
        write(path, text)
    write(f"{beside}.args", ("\n".join(arguments) + "\n").encode())
    for ending, text in (("out", out), ("err", err), ("status", f"{status}\n" if status else "")):
        if text:
            write(f"{beside}.{ending}", text.encode())


def dump(name, text, out, status=0):
    case(name, ["dump", "image.txt"], {"image.txt": text}, out, status=status)


def refused(name, text, line):
    dump(name, text, f"refused {line}\n", 1)


def line(image):
    return image.hex().encode() + b"\n"


def told():
    """Images, and the text of each."""
    assert one_row().bytes().hex().startswith(
        "44525347010001007100000000000000" "00f451c28c0100000000000000000000" "0100000000000000" "0100000001000000"
        "00f451c28c010000" "0100000001000000010000004100000000" "0100000000000000")
    assert (len(one_row().bytes()), len(two_rows().bytes())) == (113, 236)
    one = "image v1 rollup chunk 1704067200000 range 0 1 rows 1\n[1704067200000,\"A\"]\n"
    dump("dump_of_one_row", line(one_row().bytes()), one)
    dump("dump_without_a_newline", line(one_row().bytes())[:-1], one)
    case("dump_of_a_file_behind_dashes", ["dump", "--", "image.txt"], {"image.txt": line(one_row().bytes())}, one)
    case("dump_of_a_file_named_help", ["dump", "help"], {"help": line(one_row().bytes())}, one)
    dump("dump_of_two_rows", line(two_rows().bytes()),
         "image v1 rollup chunk 1704067200000 range 0 3 rows 2\n"
         "[1704067200000,\"A\",\"en\",2,12,5,7]\n[1704070800000,\"B\",\"en\",1,-2,-2,-2]\n")
    texts = [(DAY, ["", "a"], [0]), (DAY, ["", "a"], [-9223372036854775808]), (DAY, ["\"\\/\n\x01", "é"], [9223372036854775807])]
    dump("dump_of_rows_as_they_came", line(Image(texts, 7, 10, rollup=False).bytes()),
         "image v1 plain chunk 1704067200000 range 7 10 rows 3\n"
         "[1704067200000,null,\"a\",0]\n[1704067200000,null,\"a\",-9223372036854775808]\n"
         "[1704067200000,\"\\\"\\\\/\\n\\u0001\",\"é\",9223372036854775807]\n")
    early = Image([(-62135596800000, ["x"], []), (-1, ["x"], [])], 18446744073709551613, 18446744073709551615, chunk=-62135596800000)
    dump("dump_of_the_first_times", line(early.bytes()),
         "image v1 rollup chunk -62135596800000 range 18446744073709551613 18446744073709551615 rows 2\n"
         "[-62135596800000,\"x\"]\n[-1,\"x\"]\n")
    many = [(DAY + i, [f"value {i % 7}"], [i]) for i in range(600)]
    dump("dump_of_many_rows", line(Image(many).bytes()),
         "image v1 rollup chunk 1704067200000 range 0 600 rows 600\n"
         + "".join(f"[{DAY + i},\"value {i % 7}\",{i}]\n" for i in range(600)))


def no_text():
    """Files that aren't a line of digits, and paths without a file."""
    image = line(two_rows().bytes())
    for name, text in (
        ("another_letter", image.replace(b"44", b"4g", 1)),
        ("upper_case", image.upper()),
        ("an_odd_number_of_digits", image[:-2] + b"\n"),
        ("a_carriage_return", image[:-1] + b"\r\n"),
        ("two_newlines", image + b"\n"),
        ("a_newline_before_the_digits", b"\n" + image),
        ("a_space_between_digits", image[:2] + b" " + image[2:]),
        ("bytes_that_are_no_text", image[:-1] + b"\xff\xfe\n"),
    ):
        refused(f"dump_of_{name}", text, "101 BadCommand")
    refused("dump_of_an_empty_file", b"", "50 Truncated")
    refused("dump_of_a_newline_alone", b"\n", "50 Truncated")
    case("dump_of_no_file", ["dump", "none/image.txt"], {}, "refused 96 FileFault \"none/image.txt\"\n", status=1)
    case("dump_of_a_path_with_quotes", ["dump", "no \"such\" é"], {}, "refused 96 FileFault \"no \\\"such\\\" é\"\n", status=1)
    case("dump_of_a_directory", ["dump", "folder"], {"folder/image.txt": image}, "refused 96 FileFault \"folder\"\n", status=1)


def no_image():
    """Images that were damaged, each with a right digest but for the last."""
    image = two_rows().bytes()
    page = lambda key, value: lambda it: it.dims[0].__setitem__(key, value)
    refused("dump_of_an_image_cut_short", line(image[:-1]), "50 Truncated")
    refused("dump_of_an_image_with_another_mark", line(b"DRSH" + image[4:]), "51 BadMagic")
    refused("dump_of_an_image_of_a_later_version", line(changed(two_rows(), lambda it: setattr(it, "version", 3))), "52 BadVersion")
    refused("dump_of_an_image_with_a_byte_more", line(image + b"\0"), "53 BadLength")
    refused("dump_of_an_image_with_a_range_too_short", line(Image(two_rows().rows, last=1).bytes()), "53 BadLength")
    refused("dump_of_an_image_with_texts_out_of_order", line(changed(two_rows(), page("texts", [b"B", b"A"]))), "54 DictOrder")
    refused("dump_of_an_image_with_a_text_that_is_none", line(changed(two_rows(), page("texts", [b"\xff", b"B"]))), "54 DictOrder")
    refused("dump_of_an_image_with_a_number_too_large", line(changed(two_rows(), page("numbers", [0, 2]))), "55 NumberOutOfDict")
    refused("dump_of_an_image_with_times_swapped", line(changed(two_rows(), lambda it: it.times.reverse())), "56 RowOrder")
    refused("dump_of_an_image_of_the_next_day", line(changed(two_rows(), lambda it: setattr(it, "chunk", DAY + 24 * HOUR))), "56 RowOrder")
    refused("dump_of_an_image_with_row_numbers_swapped", line(changed(two_rows(), page("lists", [[1], [0]]))), "57 BadIndex")
    refused("dump_of_an_image_with_another_digest", line(image[:-1] + bytes([image[-1] ^ 1])), "58 DigestMismatch")
    refused("dump_of_an_image_with_a_changed_value", line(image[:70] + bytes([image[70] ^ 1]) + image[71:]), "58 DigestMismatch")


def bad_usage():
    for name, arguments in (
        ("usage_of_dump_without_a_file", ["dump"]),
        ("usage_of_dump_of_two_files", ["dump", "a", "b"]),
        ("usage_of_dump_with_workers", ["dump", "--workers", "2", "a"]),
        ("usage_of_help_behind_dump", ["dump", "--help"]),
        ("usage_of_dump_in_capitals", ["Dump", "a"]),
    ):
        case(name, arguments, {}, err=USAGE, status=2)


if __name__ == "__main__":
    told()
    no_text()
    no_image()
    bad_usage()
