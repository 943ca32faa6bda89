"""The two files of a program of cases: parts behind their sizes in two bytes for its standard input, and the lines that it has to print."""
import pathlib


def store(folder, parts, lines):
    data = b"".join(len(part).to_bytes(2, "little") + part for part in parts)
    assert len(data) <= 65536, len(data)
    (pathlib.Path(folder) / "stdin").write_bytes(data)
    (pathlib.Path(folder) / "stdout").write_text("".join(line + "\n" for line in lines))
