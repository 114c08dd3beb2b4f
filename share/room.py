"""Where a row of .ci/share runs: a folder of its own, and what was started in it."""
import os
import shutil
import signal
import tempfile
from dataclasses import dataclass, field
from typing import Any

from scripted import UNRULY, Editor, Share, marked


@dataclass
class Room:
    """A row's folder, the programs that it runs before, and what is to be ended after it."""

    proxy: str
    sample: str
    folder: str = field(default_factory=lambda: tempfile.mkdtemp(prefix="share"))
    _begun: list[Any] = field(default_factory=list)

    def share(self, *manners: str, **options: Any) -> Share:
        """A started lsp_share before the unruly server, with these manners."""
        return self.share_of([*UNRULY, *manners], **options)

    def share_of(self, server: list[str], **options: Any) -> Share:
        """A started lsp_share before this server."""
        share = Share(self.folder, options.pop("proxy", self.proxy), server, **options)
        self._begun.append(share)
        return share.ready()

    def editor(self, share: Share, through_join: bool = False) -> Editor:
        """An editor that joins, and has said nothing."""
        editor = Editor(share.path, through_join)
        self._begun.append(editor)
        return editor

    def editors(self, share: Share) -> tuple[Editor, Editor]:
        """Two editors that are ready, of which one joins through lsp_join."""
        first, second = self.editor(share), self.editor(share, True)
        first.start()
        second.start()
        return first, second

    def __enter__(self) -> "Room":
        return self

    def __exit__(self, *_: Any) -> None:
        for each in self._begun:
            if isinstance(each, Editor):
                each.cut()
        for pid in marked(self.folder):
            try:
                os.kill(pid, signal.SIGKILL)
            except OSError:
                pass
        for each in self._begun:
            if isinstance(each, Share):
                each.process.wait()
        shutil.rmtree(self.folder)
