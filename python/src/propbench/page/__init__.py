"""The page: a session, a workbench or a plan in a browser, served on this machine alone.

The network drawn, switches for premises and choices, reasons, conflicts with their repairs, steps
forward and back, and the plain lines; of a plan its chart, and forms that change it.
"""

import threading
from contextlib import AbstractContextManager
from typing import TYPE_CHECKING

from propbench.closing import Closing
from propbench.files import OpenedFile
from propbench.page.asking import ServedNetwork
from propbench.page.server import Server
from propbench.watching import Watched
from propbench.watching.of_workbench import WorkbenchWatched

if TYPE_CHECKING:
    from propbench.planning.open_plan import OpenPlan


class Page(Closing):
    """A page that is served, in threads of its own, until it is closed."""

    def __init__(
        self,
        watched: "Watched | OpenPlan",
        title: str,
        *,
        path: str | OpenedFile | None = None,
        port: int = 0,
    ) -> None:
        """Serves what is watched, which was read from this file, if from any; from one that is
        `-` standard input, which is saved under a name that the page asks for. What is changed is
        kept in the file's journal, where there is one, until it is saved."""
        file = OpenedFile(path) if isinstance(path, str) else path
        self._asking = _asking(watched, title, file)
        self._server = Server(self._asking, port)
        self._thread = threading.Thread(target=self._server.serve_forever, daemon=True)
        self._thread.start()

    @property
    def address(self) -> str:
        """Where the page is, with the token that nobody else knows."""
        return self._server.address

    def held(self) -> AbstractContextManager[None]:
        """The page asks nothing meanwhile, and looks anew afterwards: for whoever uses the session
        or the workbench beside it."""
        return self._asking.held()

    def wait(self) -> None:
        """Waits until the page is closed. Raises KeyboardInterrupt at Ctrl-C."""
        while self._thread.is_alive():
            self._thread.join(0.5)

    def close(self) -> None:
        """Ends what is run, and the server; what was served stays as it is."""
        self._asking.close()
        self._server.shutdown()
        self._server.server_close()


def _asking(watched: "Watched | OpenPlan", title: str, file: OpenedFile | None) -> ServedNetwork:
    """What answers: of a workbench with the tasks of one project this is a plan too."""
    from propbench.page.plan_asking import PlanAsking
    from propbench.planning.open_plan import OpenPlan, plan_in

    if isinstance(watched, OpenPlan):
        return PlanAsking(watched, title, file)
    plan = plan_in(watched.workbench) if isinstance(watched, WorkbenchWatched) else None
    return ServedNetwork(watched, title, file) if plan is None else PlanAsking(plan, title, file)


def serve(
    watched: "Watched | OpenPlan",
    title: str,
    *,
    path: str | OpenedFile | None = None,
    port: int = 0,
    wait: bool = True,
) -> Page:
    """Serves a page and prints its address; until Ctrl-C, where it is to `wait`."""
    page = Page(watched, title, path=path, port=port)
    print(f"The page is at {page.address}", flush=True)
    if wait:
        print("Ctrl-C ends it.", flush=True)
        try:
            page.wait()
        except KeyboardInterrupt:
            page.close()
            journal = path.journal if isinstance(path, OpenedFile) else None
            if journal is not None and not journal.is_empty:
                print("\nWhat was not saved is kept: --resume goes on with it.", flush=True)
    return page


__all__ = ["Page", "serve"]
