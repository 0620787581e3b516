"""What a page shows of a desk: each part of it as an answer to a request."""

from __future__ import annotations

from collections.abc import Mapping

from ..export import problem, table, taken
from ..pictures.layout import NoPicture, Spot
from ..pictures.looks import Beginning, Looks
from ..pictures.nearby import Nearby
from ..project.printed_report import browser, printed
from ..project.report import report
from ..steps import DeskFault
from ..workspace import Desk
from .comparison_view import Comparisons
from .overview import Overview
from .positions import Placement
from .responses import Json, Response, whole
from .second_sweeps import SecondSweeps
from .selection import ArcList
from .views import arc_views, kept_view, second_view, words_view, worth_view
from .worth_finder import WorthFinder

# The most arcs that are laid out together, which takes some seconds.
MOST_LAID_OUT = 3_000
CHANGED = "the network has changed in another tab: look again"


class Shown:
    """The parts of a page that shows a desk."""

    def __init__(
        self, desk: Desk, spots: Mapping[int, Spot], before: Placement | None = None
    ) -> None:
        """Take the spots of a map, or what another placement has. Raises what `Placement`
        raises."""
        self.desk = desk
        self.words = words_view(desk)
        # Whether a browser is installed that prints the report.
        self.can_print = bool(browser())
        self.placement = Placement(desk, spots, before)
        self.beginning = Beginning(desk)
        self.looks = Looks(desk, self.beginning)
        self._overview = Overview(desk, self.placement.places, self.looks)
        self._nearby = Nearby(desk)
        self._rows_of_all = ArcList(desk, self.beginning)
        self.sweeps = SecondSweeps(desk)
        self.worth_finder = WorthFinder(desk)
        self._comparisons = Comparisons(desk, self.placement.places)

    def rows(self, filter: str, sort: str, first: int, count: int) -> Json:
        return self._rows_of_all.view(filter, sort, first, count)

    def numbers(self, filter: str, sort: str, first: int, count: int) -> Json:
        return {"numbers": self._rows_of_all.numbers(filter, sort)[first : first + count]}

    def found(self, text: str) -> Json:
        return self._rows_of_all.found(text)

    def looks_of_all(self) -> Json:
        self.placement.sync()
        return self._overview.looks()

    def comparison(self, one: str, two: str, first: int, count: int) -> Json:
        return self._comparisons.view(one, two, first, count)

    def difference(self, one: str, two: str) -> Json:
        self.placement.sync()
        return self._comparisons.picture(one, two)

    def difference_file(self, one: str, two: str) -> Response:
        self.placement.sync()
        return Response(200, "image/svg+xml", self._comparisons.file(one, two), "difference.svg")

    def report_file(self) -> Response:
        return Response(200, "text/html; charset=utf-8", self._report().encode(), "report.html")

    def report_pdf(self) -> Response:
        return Response(200, "application/pdf", printed(self._report()), "report.pdf")

    def _report(self) -> str:
        self.placement.sync()
        return report(self.desk, self.placement.picture)

    def _near(self, near: str) -> tuple[int, ...]:
        return self.desk.network.names.place_of(whole(near, "near")) if near else ()

    def drawn(self, near: str, form: int = 0) -> Json:
        nodes = self._near(near)
        svg, reason, arcs = "", "", self._nearby.arcs(nodes)
        picture = self.placement.picture_in(form)
        try:
            svg = picture.svg(nodes, arcs)
        except NoPicture as fault:
            reason = str(fault)
        self.placement.keep()
        marks = map("".join, self.looks.marks(arcs))
        told = [{**arc, "mark": mark} for arc, mark in zip(arc_views(self.desk, arcs), marks)]
        has_ground = self._overview.is_there
        return {
            "svg": svg,
            "reason": reason,
            "arcs": told,
            "has_ground": has_ground,
            "version": self.placement.version,
            "layout": picture.places.number,
            "origin": self.placement.origin,
            "fixed": self.placement.why_fixed,
            "can_lay_out": self.placement.can_lay_out,
            # All of a network that no picture can have is laid out by itself, and shown then.
            "can_draw_all": bool(svg)
            and not has_ground
            and self.placement.is_new
            and len(arcs) < len(self.desk.network.pictured()) <= MOST_LAID_OUT,
            "moved": len(self.placement.moved),
        }

    def ground(self) -> Json:
        self.placement.sync()
        made = self._overview.ground()
        self.placement.keep()
        return made

    def move(self, node: int, right: int, down: int, form: int, turn: int) -> Json:
        """Put a place somewhere else in the picture, in hundredths of a point."""
        if turn != self.desk.turn:
            raise DeskFault(CHANGED)
        why_not = self.placement.move(node, right, down, form)
        return {"kept_in": kept_view(self.desk, "")["kept_in"], "why_not": why_not}

    def begin_layout(self, near: str, form: int, turn: int) -> Json:
        """Begin to lay out the picture anew for a window of this form: all of it, if it is not too
        large, or else the part near a place."""
        if turn != self.desk.turn:
            raise DeskFault(CHANGED)
        nodes = self._near(near)
        arcs = self.desk.network.pictured()
        if len(arcs) > MOST_LAID_OUT:
            arcs = self._nearby.arcs(nodes)
        self.placement.begin_layout(arcs, nodes, form)
        return {}

    def laid_out(self, turn: int) -> Json:
        """Return whether the picture is still laid out anew."""
        before = self.placement.version
        is_laying_out = self.placement.is_laying_out()
        if self.placement.version != before:
            self._overview.look()
        return {"is_laying_out": is_laying_out}

    def picture_file(self, near: str, form: int = 0) -> Response:
        nodes = self._near(near)
        svg = self.placement.picture_in(form).svg(nodes, self._nearby.arcs(nodes), to_take=True)
        return Response(200, "image/svg+xml", taken(self.desk, svg.encode()), "plan.svg")

    def table_file(self) -> Response:
        return Response(200, "text/csv; charset=utf-8", table(self.desk).encode(), "plan.csv")

    def problem_file(self) -> Response:
        return Response(
            200, "text/plain; charset=utf-8", problem(self.desk).encode(), "problem.max"
        )

    def worth(self) -> Json:
        """Return what each arc is worth, once that is known, and whether something is still being
        found; the page asks again then."""
        is_finding = self.worth_finder.is_finding()
        is_told = self.desk.state.answers.knows_worth or not is_finding
        return {"is_finding": is_finding, **(worth_view(self.desk) if is_told else {})}

    def seconds(self, arcs: list[int], turn: int) -> Json:
        """Return what a second one brings beside each of the first arcs, and which are left."""
        if turn != self.desk.turn:
            raise DeskFault(CHANGED)
        found = self.sweeps.portion(arcs)
        told = [second_view(self.desk, it) for it in found]
        return {"seconds": told, "left": arcs[len(found) :]}
