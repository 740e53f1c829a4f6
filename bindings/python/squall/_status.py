"""The exceptions of statuses."""

from __future__ import annotations

from typing import Dict, Optional, Type

from . import errors
from ._library import message
from .errors import FrameError, FrameFault, NotDoneError, PlanError, PlanFault, SquallError
from .keys import Rank

#: No place of a plan's fault.
NO_PLACE = 0xFFFFFFFFFFFFFFFF
#: How far the statuses of a new plan's faults are above those of an old one's.
_NEW = 20

#: The classes that take nothing but a text, by the status that each has.
_SIMPLE: Dict[int, Type[SquallError]] = {
    it.status: it
    for it in vars(errors).values()
    if isinstance(it, type)
    and issubclass(it, SquallError)
    and it.status is not None
    and it is not NotDoneError
}
_BOUNDS = (PlanFault.OVERLAP, PlanFault.GAP)


def _plan_error(plan: str, status: int, at: int) -> PlanError:
    """The fault of a plan, and its place."""
    fault = PlanFault(status)
    place: Optional[int] = None if at == NO_PLACE else at
    if place is None or fault not in _BOUNDS:
        return PlanError(plan, fault, index=place)
    return PlanError(plan, fault, bound=Rank.of(place))


def error_of(status: int, at: int) -> SquallError:
    """The exception of a status that is not 0. `at` is the place of the last plan fault."""
    if status in _SIMPLE:
        return _SIMPLE[status](message(status))
    if PlanFault.JSON <= status <= PlanFault.GAP:
        return _plan_error("old", status, at)
    if PlanFault.JSON + _NEW <= status <= PlanFault.GAP + _NEW:
        return _plan_error("new", status - _NEW, at)
    if FrameFault.MAGIC <= status <= FrameFault.SPARE:
        return FrameError(FrameFault(status))
    error = SquallError(f"{message(status)}: {status}")
    error.status = status
    return error


def check(status: int, at: int = NO_PLACE) -> None:
    """Raises the exception of a status, if it is not 0."""
    if status != 0:
        raise error_of(status, at)
