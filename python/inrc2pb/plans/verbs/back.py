"""The verb for a nurse who is back."""


from ...sheets.written_days import BACK, with_days, without_last, words_by_day
from ...week.faults import Misuse
from ...week.records import NurseDay
from ...week.words import readable
from ..absence import Away
from ..planning import searched_for
from ..store import PlanStore
from ..verb import Event, Form, Outcome, Verb, wording_of
from ..ward import ALWAYS_OFF, DAYS_OFF, PROMISED, WardPlan


def _lifted(old: WardPlan, event: Event) -> Away:
    """A nurse is back from a day on: the absence of that day ends, and later ones for other reasons
    stay."""
    wording = wording_of(old, event, f"back {readable(next(iter(old.scenario.nurses)))} Mon")
    nurse = wording.nurse()
    first = wording.open_day()
    wording.end()
    return _back(old, nurse, first)


def _back(old: WardPlan, nurse: str, first: int) -> Away:
    """A nurse is back from a day on, also in the next period, if the absence goes on there."""
    word, days = absence_from(old, nurse, first)
    is_written = words_by_day(old.state.absences, nurse).get(first) == word
    lifted = (
        without_last(old.state.absences, nurse, days)
        if is_written
        else with_days(old.state.absences, nurse, days, BACK)
    )
    new = old.with_absences(lifted)
    same = [day for day in days if new.away.get(NurseDay(nurse, day)) == word]
    if same:
        # The spreadsheet has the same absence.
        new = old.with_absences(with_days(lifted, nurse, same, BACK))
    is_to_end = days[-1] == old.days.total - 1
    return Away(
        old,
        new,
        nurse,
        tuple(days),
        BACK,
        was=word,
        goes_on=lambda plan: (
            _back(plan, nurse, 0)
            if is_to_end and plan.away.get(NurseDay(nurse, 0)) == word
            else None
        ),
    )


def absence_from(plan: WardPlan, nurse: str, first: int) -> tuple[str, list[int]]:
    """The reason for which a nurse is away on a day, and the days from it on with the same reason,
    that a verb has written if it has written this one, or that only the spreadsheet says. Raises
    Misuse if she is not away."""
    word = plan.away.get(NurseDay(nurse, first), "")
    if word in ("", *DAYS_OFF):
        promised = ": the sheet plan promises her this day off: empty her cell to change that"
        why = {"": "", ALWAYS_OFF: ": she is always off on it", PROMISED: promised}[word]
        raise Misuse(f"{readable(nurse)} is not away on {plan.days.text(first)}{why}")
    by_verbs = words_by_day(plan.state.absences, nurse)
    is_of_verb = by_verbs.get(first) == word
    days = [first]
    for day in range(first + 1, plan.days.total):
        if plan.away.get(NurseDay(nurse, day)) != word or (by_verbs.get(day) == word) != is_of_verb:
            break
        days.append(day)
    return word, days


def _asked(store: PlanStore, event: Event) -> Away:
    return _lifted(store.planned(), event)


def _done(store: PlanStore, event: Event) -> Outcome:
    """The plan changes little, and only from the first of the days on."""
    lifted = _asked(store, event)
    return searched_for(store, event, lifted, lifted.days[0])


VERB = Verb(
    names=(BACK,),
    words="NAME DAY",
    effect="she is back from this day on",
    asked=_asked,
    done=_done,
    searches=True,
    form=Form(
        verb=BACK,
        heading="A nurse is back",
        button="Back",
        text="from a day on, with few changes",
        refused="it was not written that {nurse} is back",
        fields=("nurse", "first", "seconds"),
    ),
)
