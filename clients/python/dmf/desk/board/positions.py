"""Where the places of a board's pictures lie: as on a map, as Graphviz laid them out, or where they
were moved by hand; and how a project keeps it."""

from __future__ import annotations

import contextlib
from collections.abc import Mapping

from ..pictures.layout import Places, Spot
from ..pictures.layout_run import LayoutRun
from ..pictures.named_spots import moved_spots, take_named
from ..pictures.picture import Picture
from ..project.acts import place_name
from ..project.records import DRAWN, MAP, PlaceName
from ..project.scenarios import Scenarios
from ..steps import DeskFault
from ..workspace import Desk

# The forms of windows for which places are laid out, in hundredths of the height.
FORMS = 50, 70, 100, 140, 200, 280
# The decimals of a position, in points; and how far from the middle a place may be moved, in
# hundredths of a point.
DECIMALS, FARTHEST = 2, 10**8
ON_MAP = "places lie as on the map, where none is moved"
NAMELESS = "this place has no name of its own, by which it could be found again"
UNSURE = (
    "an older version kept where places lie, perhaps as on a map: none is moved until all are laid "
    "out anew (Tidy)"
)

Position = tuple[float, float]


def _position(spot: Spot) -> Position:
    return round(spot.x, DECIMALS), round(spot.y, DECIMALS)


def _known_form(form: int) -> int:
    """Return the form nearest to this one among those for which places are laid out."""
    return min(FORMS, key=lambda it: max(it / max(form, 1), form / it))


class Placement:
    """The pictures of a desk, and where its places lie. Until a place is moved, each form of a
    window has a picture, unless some positions are known: the first one that is shown is that of
    the board. From then on all windows have the picture in which it was moved.

    `origin` says where the positions come from: a map, a drawing, or nothing if a project of an
    older version does not say it. `version` counts what pages must hear of."""

    origin: str
    version: int

    def __init__(
        self, desk: Desk, spots: Mapping[int, Spot], before: Placement | None = None
    ) -> None:
        """Take the spots of a map, if there is one; or what the placement before has, for a project
        that is new: this writes it. Raises what `take_layout` raises."""
        self._desk = desk
        self.picture = Picture(desk)
        self.version = before.version + 1 if before else 0
        # Where places were moved by hand of which no project keeps it: without a name of its own a
        # place could not be found again.
        self._moved: dict[PlaceName, Spot] = {}
        self._pictures: dict[int, Picture] = {}
        # The number of places that had spots when a project was last asked to store them, and the
        # names of those that were made.
        self._put: tuple[int, list[str]] = -1, []
        # The layout that is being computed, and how many there were.
        self._run: LayoutRun | None = None
        self._count = max(len(FORMS), before.places.number if before else 0)
        self.places.call(desk.network.names.made)
        if before:
            self.origin = before.origin
            self.places.take(before.places)
            self._moved = {**before._moved}
            self._is_laid_out = not self.places.spots
            self._keep()
        else:
            self.origin = MAP if spots else self._kept_origin()
            self._take_kept(spots)
            self._is_laid_out = not self.places.spots
        self.picture.is_map = self.origin != DRAWN

    @property
    def places(self) -> Places:
        """Return where places lie in the picture of the board."""
        return self.picture.places

    @property
    def _project(self) -> Scenarios | None:
        return Scenarios.of(self._desk)

    def _kept_origin(self) -> str:
        project = self._project
        return project.project.positions_from if project and project.project.positions else DRAWN

    def _take_kept(self, spots: Mapping[int, Spot]) -> None:
        """Take the spots that a project keeps, and those of a map."""
        kept = self._project.project.positions if self._project else {}
        take_named(self.places, self._desk, kept)
        self.places.spots.update(spots)

    # Where places were moved by hand.

    @property
    def why_fixed(self) -> str:
        """Return why no place can be moved by hand, or an empty text."""
        return self._why_not_laid_out or UNSURE * (self.origin != DRAWN)

    @property
    def _why_not_laid_out(self) -> str:
        project = self._project
        if self.origin == MAP:
            return ON_MAP
        return (
            f"the project is read-only: {project.file.why_not}"
            if project and project.file.why_not
            else ""
        )

    @property
    def moved(self) -> Mapping[PlaceName, Spot]:
        """Return where places were moved by hand."""
        kept = self._project.project.moved if self._project and self.origin == DRAWN else {}
        return {**self._moved, **{name: Spot(*position) for name, position in kept.items()}}

    def sync(self) -> None:
        """Let the pictures show places where they were moved to. What the project has counts, in
        which each act is one assignment."""
        self.places.moved = moved_spots(self._desk, self.moved)

    def move(self, node: int, right: int, down: int, form: int) -> str:
        """Put a place somewhere else, in hundredths of a point, in the picture for a window of this
        form. If that is where it lay before it was moved, it counts as not moved. Return why the
        project does not keep it, if there is one. Raise a `DeskFault` if it cannot be moved, or
        could not be kept."""
        place = self._desk.network.names.place_of(node).entry
        told = self._desk.network.names.node(place)
        if self.why_fixed:
            raise DeskFault(self.why_fixed)
        picture = self.picture_in(form)
        if place not in picture.places.spots:
            raise DeskFault(f"{told} is not in the picture")
        if max(abs(right), abs(down)) > FARTHEST:
            raise DeskFault(f"{told} would lie too far away")
        spot = Spot(right / 100, -down / 100)
        is_home = _position(spot) == _position(picture.places.spots[place])
        name = place_name(self._desk.network, place)
        self._keep_move(picture, name, None if is_home else spot)
        self._settle(picture)
        self.version += 1
        return NAMELESS if self._project and not isinstance(name, str) else ""

    def _keep_move(self, picture: Picture, name: PlaceName, spot: Spot | None) -> None:
        """Write to the project where a place lies that is moved, or that it lies where it was laid
        out; and the picture in which it was moved, if that was not kept."""
        project = self._project
        kept = {name: _position(spot)} if project and spot and isinstance(name, str) else {}
        if project and (picture is not self.picture or project.project.positions_from != DRAWN):
            project.take_layout(DRAWN, self._named(picture.places), kept)
        elif project and isinstance(name, str):
            project.take_moved({name: kept.get(name)})
        others = {it: at for it, at in self._moved.items() if it != name}
        self._moved = {**others, name: spot} if spot and not kept else others

    def _settle(self, picture: Picture) -> None:
        """Show this picture in all windows."""
        self.places.take(picture.places)
        self._pictures, self._is_laid_out = {}, False

    # The layout of all places from the beginning.

    @property
    def is_new(self) -> bool:
        """Return True if no position was known at first, and no place was moved."""
        return self._is_laid_out and self.can_lay_out

    @property
    def can_lay_out(self) -> bool:
        """Return True if places can be laid out anew."""
        return not self._why_not_laid_out

    def begin_layout(self, arcs: list[int], nodes: tuple[int, ...], form: int) -> None:
        """Begin to lay out these arcs and nodes anew for a window of this form, beside the requests
        of pages. Raise a `DeskFault` if the project could not keep it, or on a map."""
        if self._why_not_laid_out:
            raise DeskFault(self._why_not_laid_out)
        form = _known_form(form)
        going = self._run
        if going and (going.version, going.found.form) == (self.version, form / 100):
            # Another tab has begun it.
            return
        picture = Picture(self._desk)
        picture.places.form = form / 100
        self._run = picture.begin_layout(arcs, nodes, self.version)

    def is_laying_out(self) -> bool:
        """Return True while places are laid out anew. Once that is over, show and keep the layout,
        which takes back what was moved by hand. Raise a `DeskFault` if there is none, or if a place
        was moved meanwhile."""
        run = self._run
        if run and not run.is_over():
            return True
        self._run = None
        if run and run.fault:
            raise run.fault
        if run and run.version != self.version:
            raise DeskFault("a place was moved meanwhile, so the picture stays as it is")
        if run:
            self._take_layout(run.found)
        return False

    def _take_layout(self, found: Places) -> None:
        named = self._named(found)
        if self._project:
            self._project.take_layout(DRAWN, named, {})
        self._count += 1
        found.number = self._count
        self._moved = {}
        self.origin, self.picture.is_map = DRAWN, False
        self.places.take(found)
        self._pictures, self._is_laid_out = {}, False
        self.version += 1

    # The pictures, and the positions that a project keeps.

    def picture_in(self, form: int) -> Picture:
        """Return the picture for a window of this form: its width in percent of its height, or 0 if
        that is not known."""
        self.sync()
        if not form or not self._is_laid_out:
            return self.picture
        known = _known_form(form)
        if known not in self._pictures:
            made = Picture(self._desk) if self._pictures else self.picture
            made.places.form, made.places.number = known / 100, len(self._pictures)
            self._pictures[known] = made
        return self._pictures[known]

    def keep(self) -> None:
        """Store in the project the positions that it does not have yet. If that fails, the next
        step reports it."""
        put = len(self.places.spots), [*self._desk.network.names.made.values()]
        if put != self._put:
            self._put = put
            with contextlib.suppress(DeskFault):
                self._keep()

    def _keep(self) -> None:
        project = self._project
        if project is None or project.file.why_not:
            return
        found = self._named(self.places)
        if not found:
            return
        if self.origin and self.origin != project.project.positions_from:
            moved = {it: at for it, at in self._moved.items() if isinstance(it, str)}
            project.take_layout(
                self.origin, found, {name: _position(spot) for name, spot in moved.items()}
            )
            self._moved = {it: at for it, at in self._moved.items() if it not in moved}
            return
        before, names = project.project.positions, self._desk.network.names.places
        new = {it: at for it, at in found.items() if it in names and before.get(it) != at}
        if new:
            project.take_positions(new)

    def _named(self, places: Places) -> dict[str, Position]:
        """Return the positions of places by their names. A place without a name of its own is put
        somewhere new each time."""
        places.call(self._desk.network.names.made)
        named = ((place_name(self._desk.network, it), spot) for it, spot in places.spots.items())
        apart = {name: _position(spot) for name, spot in places.apart.items()}
        return {
            **apart,
            **{name: _position(spot) for name, spot in named if isinstance(name, str)},
        }
