"""The language server: what an editor asks while a text is written, over standard streams.

    from warpd.language.server import serve

    serve(sys.stdin.buffer, sys.stdout.buffer)

It speaks the Language Server Protocol, version 3.17. `frames` reads and writes messages, `documents` has the texts as
the editor has them, `names` finds what each text declares and mentions, whether it parses or not, `resolving` what
each name means, `spelled` in each spelling of tests, `workspace` keeps what is known of each text, and `serving` answers."""

from .serving import Server, serve

__all__ = ["Server", "serve"]
