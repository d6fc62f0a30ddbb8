"""How a problem is solved: the program is asked first, and behind some of its stops the exact solver, or the search for
whole numbers."""

from __future__ import annotations

import time
from typing import Any, Callable, NamedTuple, Optional

from . import program
from .arguments import Arguments
from .certificates import CertificateError
from .errors import DCXError, DPPError, SolverError
from .lines import Stop
from .refusals import read, stopped
from .results import Result
from .scripts import Script
from .shown import fallback

__all__ = ["Question", "asked", "behind", "helps", "solve"]


# ---- what is asked behind a stop, as texts and numbers, so that a worker elsewhere can be asked too


class Question(NamedTuple):
    """What is asked behind a stop: a script at one line of settings, whether its objective is maximized, whether its
    variables are to be whole, what the user wishes of the exact solver, and the most boxes of a search."""

    script: str
    settings: str
    maximized: bool
    is_whole: bool
    wishes: fallback.Wishes
    max_nodes: Optional[int] = None


def helps(stop: Optional[Stop], is_whole: bool, is_limited: bool) -> bool:
    """Whether something is asked behind a stop: `is_limited` where the user set the limit of pivots."""
    if is_whole:
        from .whole import answering

        return answering.helps(stop, is_limited)
    return fallback.helps(stop, is_limited)


def asked(question: Question, told: Optional[Callable[[Any], object]] = None) -> Any:
    """What is shown: a `dcx.shown.fallback.Shown`, or of whole numbers a `dcx.whole.answering.Shown`, whose progress
    `told` is called with as it goes. Raises `SolverError` where there is nothing, and `CertificateError`."""
    wishes = question.wishes
    if question.is_whole:
        from .whole import answering

        seconds = answering.SECONDS if wishes.seconds is None else wishes.seconds
        return answering.shown(question.script, question.settings, seconds, question.max_nodes, told)
    return fallback.shown(question.script, question.settings, question.maximized, wishes)


def behind(stop: Stop, script: Script, ask: Callable[[], Any]) -> Any:
    """What is shown behind a stop, where `ask` asks. Errors begin with the program's stop, at the user's line."""
    try:
        return ask()
    except SolverError as cause:
        error = stopped(stop, script)
        raise SolverError(f"{error.reason} Behind that, {cause.reason}", error.site, stop) from None
    except CertificateError as cause:
        reason = f"what the exact solver found for the problem is wrong, as the program says: {cause.reason}"
        raise CertificateError(reason, cause.fault) from None


# ---- one problem


def solve(problem: Any, given: Arguments, verbose: bool) -> float:
    """Solves a problem as `Problem.solve` tells, and keeps the result in it."""
    return _Solve(problem, given, verbose).value()


class _Solve:
    """One solve of a problem at the parameters' values."""

    def __init__(self, problem: Any, given: Arguments, verbose: bool):
        self.problem = problem
        self.given = given
        self.verbose = verbose
        self.script: Script = problem.written
        self.settings = self.script.settings_line()
        self.is_whole = problem.is_mixed_integer()
        if given.enforce_dpp and not problem.is_dpp():
            reason = "The problem is not DPP: the rules don't accept it where its parameters may vary."
            raise DPPError(reason, problem.site)

    def value(self) -> float:
        """The value, which is kept in the problem; raises where there is none."""
        problem = self.problem
        self.say_what_is_handed_over()
        start = time.perf_counter()
        try:
            answer, shown = self.answered()
        except (program.ProgramError, SolverError, CertificateError) as cause:
            error = self.given.too_late(cause, problem.site) if isinstance(cause, program.TimedOut) else cause
            self.keep(None, error=error)
            raise error from None
        except DCXError:  # the model is refused, and nothing was solved
            raise
        except BaseException as cause:  # an interruption, or what the user's own `progress` raises
            reason = "the solve was interrupted"
            if not isinstance(cause, KeyboardInterrupt):
                reason = f"the solve was ended by {type(cause).__name__}: {cause}"
            self.keep(None, error=SolverError(reason, problem.site))
            raise
        answer = answer if shown is None else shown.answer
        result = self.keep(answer, seconds=time.perf_counter() - start, shown=shown)
        value = "" if result.exact is None else f", value {result.value:.10g}, exactly {result.exact}"
        value = value if result.interval is None else f", {result.interval}"
        self.say(f"{result.status}{value}" + ("" if shown is None else f"; shown by {result.shown_by}"))
        if result.error is not None:
            raise result.error
        if getattr(shown, "why", None) == "interrupted":
            raise KeyboardInterrupt
        return result.value

    def keep(self, answer: Any, **more: Any) -> Result:
        """The result of an answer, or of an error, which the problem keeps."""
        result = Result(self.script, answer, self.problem._maximized, **more)
        self.problem._keep(result)
        return result

    def answered(self) -> tuple[Any, Any]:
        """The program's answer, None where its time passed, and what is shown behind it, None where nothing is."""
        problem, given = self.problem, self.given
        is_searched = given.exact and self.is_whole
        seconds = given.time_limit
        if is_searched:
            from .whole import answering

            seconds = given.program_seconds or min(answering.FIRST, (seconds or 2 * answering.FIRST) / 2)
        start = time.monotonic()
        problem._report, problem._asked, problem._progress = None, self.settings, None
        try:
            run = program.run("resolve", self.script.text, self.settings, options=given.options, timeout=seconds)
        except program.TimedOut:
            if not is_searched:
                raise
            return None, self.searched(f"has no answer after {seconds:g} s", start)
        problem._report = run.report
        answer = read(run, self.script).answers[0]
        if not given.exact or not helps(answer.stop, self.is_whole, bool(given.options)):
            return answer, None
        why = f"stops ({answer.stop.number} {answer.stop.name})"
        return answer, self.searched(why, start) if self.is_whole else self.exactly(why, answer.stop)

    def searched(self, why: str, start: float) -> Any:
        """What the search for whole numbers shows, where the program has no answer."""
        from .whole import answering

        limit = self.given.time_limit
        left = answering.SECONDS if limit is None else limit - (time.monotonic() - start)
        self.say(f"the program {why}; the search for whole numbers has {left:.0f} s")
        try:
            shown = asked(self.question(left), self.told)
        except SolverError as cause:
            raise SolverError(
                f"the program {why}; behind that, {cause.reason}", self.problem.site, cause.stop
            ) from None
        self.problem._progress = shown.progress
        return shown

    def exactly(self, why: str, stop: Stop) -> Any:
        """What the exact solver shows behind a stop."""
        question = self.question(self.given.time_limit)
        seconds = fallback.seconds_of(question.wishes)
        self.say(
            f"the program {why}; the exact solver has at most {seconds:g} s, and the program checks what it finds"
        )
        return behind(stop, self.script, lambda: asked(question))

    def question(self, seconds: Optional[float]) -> Question:
        """What is asked where the program has no answer."""
        given = self.given
        wishes = fallback.Wishes(True, given.trust, given.box, seconds)
        maximized = self.problem._maximized
        return Question(self.script.text, self.settings, maximized, self.is_whole, wishes, given.max_nodes)

    # -- what is told as it goes

    def told(self, progress: Any) -> None:
        """Tells how far a search for whole numbers is."""
        self.problem._progress = progress
        self.say(progress)
        if self.given.progress is not None:
            self.given.progress(progress)

    def say(self, text: object) -> None:
        """Prints it where the user wants to know."""
        if self.verbose:
            print(f"dcx: {text}")

    def say_what_is_handed_over(self) -> None:
        """Says what is handed over, and, once, which arguments have no meaning."""
        script = self.script
        self.say(
            f"variables: {len(script.variables)}, parameters: {len(script.parameters)}, constraints: "
            f"{len(script.constraints)}; problem.script() shows what is handed over"
        )
        meaningless = self.given.meaningless
        if self.verbose and meaningless and not self.problem._arguments_told:
            self.say(f"of no meaning here, where one solver gives exact answers: {', '.join(meaningless)}")
            self.problem._arguments_told = True
