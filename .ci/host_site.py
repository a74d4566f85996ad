"""Cases of `.ci/host` on the files that a host serves of a folder: which, as what, to whom, and what keeps a host from beginning."""

import contextlib
import errno
import os
import tempfile
from pathlib import Path

from hosting import TWICE, get
from hosting import begun as Hosted
from host_starts import ended, in_system_words
from loopback import holds, same

KINDS = {
    "index.html": "text/html; charset=utf-8", "play.js": "text/javascript; charset=utf-8", "play.mjs": "text/javascript; charset=utf-8",
    "play.css": "text/css; charset=utf-8", "engine.wasm": "application/wasm", "play.json": "application/json", "a-b_C.9.svg": "image/svg+xml",
    "ball.png": "image/png", "beep.ogg": "audio/ogg", "notes.txt": "text/plain; charset=utf-8", "README": "application/octet-stream",
    "data.bin": "application/octet-stream",
}
LARGEST = 64 * 1024 * 1024


@contextlib.contextmanager
def site(files):
    """A folder with these files."""
    with tempfile.TemporaryDirectory() as folder:
        for name, data in files.items():
            Path(folder, name).write_bytes(data)
        yield Path(folder)


def site_files():
    """Each plain file is served by its name, as what its ending says, as it was at the start; folders, hidden files and pipes are not."""
    files = {name: f"{name} has this\n".encode() * 3 for name in KINDS} | {"large.bin": bytes(range(256)) * 12_000}
    with site(files) as folder:
        for hidden in (".secret", "spaced name.js", "ünïcode.js"):
            (folder / hidden).write_text("hidden")
        (folder / "inner").mkdir()
        (folder / "inner" / "deep.js").write_text("deep")
        os.mkfifo(folder / "pipe")
        with Hosted("--site", folder, remarks=["pages refused: "]) as host:
            (folder / "play.js").write_text("changed")
            (folder / "late.js").write_text("late")
            for name, data in files.items():
                status, fields, body = get(host.address, f"/site/{name}")
                same((status, body == data), (200, True), name)
                same(fields["content-type"], KINDS.get(name, "application/octet-stream"), name)
                same((fields["x-content-type-options"], fields["cache-control"]), ("nosniff", "no-cache"), name)
                holds("'wasm-unsafe-eval'" in fields["content-security-policy"], name)
                status, fields, none = get(host.address, f"/site/{name}", method="HEAD")
                same((status, none, fields["content-length"]), (200, b"", str(len(data))), f"HEAD {name}")
            same(get(host.address, "/site/")[2], files["index.html"], "/site/")
            same(get(host.address, "/site/?join=2")[2], files["index.html"], "/site/ with a query")
            status, fields, _ = get(host.address, "/site")
            same((status, fields["location"]), (308, "site/"), "/site")
            for path in (".secret", "spaced%20name.js", "spaced", "%C3%BCn%C3%AFcode.js", "inner", "inner/", "inner/deep.js", "pipe", "late.js",
                         "play", "PLAY.js", "../etc/passwd", "..%2f..%2fetc%2fpasswd", "//play.js", "index.html/", "."):
                same(get(host.address, f"/site/{path}")[0], 404, path)
            for path in ("/play.js", "/sites/play.js", "/site.", "/index.html"):
                same(get(host.address, path)[0], 404, path)
            same(get(host.address, "/site/play.js", method="POST")[0], 405, "POST")
            same(get(host.address, "/site/", host="evil.example")[0], 403, "another name")
            same(get(host.address, "/site/", "Origin: https://evil.example")[0], 403, "another page")
            holds("'wasm-unsafe-eval'" not in get(host.address, "/")[1]["content-security-policy"], "the host's own page")
            same(host.talk().ask("horizon"), "horizon 0 0 0", "the host serves lines")


def site_and_tokens():
    """A site is open to who has no token; without one its paths are as those of nothing."""
    with site({"index.html": b"play"}) as folder:
        tokens = folder / ".tokens"
        tokens.write_text("secret *\n")
        tokens.chmod(0o600)
        with Hosted("--site", folder, "--tokens", tokens) as host:
            same([get(host.address, path)[0] for path in ("/site/", "/site/none", "/site", "/names.json")], [200, 404, 308, 401], "with tokens")
        with Hosted("--tokens", tokens) as host:
            same([get(host.address, path)[0] for path in ("/site/", "/site", "/none")], [401, 401, 401], "no site, with tokens")
        with Hosted() as host:
            same([get(host.address, path)[0] for path in ("/site/", "/site/index.html", "/site")], [404, 404, 404], "no site")
    with site({}) as folder, Hosted("--site", folder) as host:
        same(get(host.address, "/site/")[0], 404, "an empty folder")


def refused_sites():
    """What keeps a host with a site from beginning is told."""
    absent, is_no_folder = in_system_words(errno.ENOENT), in_system_words(errno.ENOTDIR)
    with site({"index.html": b"play"}) as folder:
        none = folder / "none"
        ended("host", TWICE, "--site", none, status=4, error=f"{none}: {absent}\ncannot read the site\n")
        file = folder / "index.html"
        ended("host", TWICE, "--site", file, status=4, error=f"{file}: {is_no_folder}\ncannot read the site\n")
        ended("host", TWICE, "--site", "", status=4, error="--site '': an empty word names no folder\ncannot read the site\n")
        with (folder / "huge.bin").open("wb") as huge:
            huge.truncate(LARGEST)
        ended("host", TWICE, "--site", folder, status=3, error=f"--site {folder}: more than 64 MiB\nthe site is too large\n")
    with site({f"{at:060}.txt": b"" for at in range(1_024)}) as folder:
        ended("host", TWICE, "--site", folder, status=3, error=f"--site {folder}: too many files\nthe site is too large\n")


CASES = [site_files, site_and_tokens, refused_sites]
