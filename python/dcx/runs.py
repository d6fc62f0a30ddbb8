"""Many settings: they are cut into parts, each of which is one run of the program, here or wherever an executor
carries it."""

from __future__ import annotations

import os
from concurrent.futures import FIRST_COMPLETED, Future, ThreadPoolExecutor, wait
from typing import Any, Callable, Iterable, Iterator, Mapping, NamedTuple, Optional, Union

from . import program, solving
from .arguments import box as box_of
from .arguments import pivots, seconds_of, trust_of, whole_number
from .certificates import CertificateError
from .errors import ParameterError, SolverError
from .refusals import taken
from .reports import Report, read_report
from .results import Result
from .scripts import Script
from .shown.fallback import Wishes

__all__ = ["MOST_SETTINGS", "ask_behind", "run_part", "solve_at"]

MOST_SETTINGS = 1_000  # of one run
_BYTES = 1_048_576  # of a settings file


class Part(NamedTuple):
    """Settings that are one run: the number of the first one, from 0, how many they are, and their lines."""

    first: int
    count: int
    lines: str

    @property
    def name(self) -> str:
        """What the part is called where it is told of: its place in the user's list, as Python writes it."""
        last = self.first + self.count
        return f"settings[{self.first}]" if self.count == 1 else f"settings[{self.first}:{last}]"


def run_part(script: str, lines: str, options: tuple[str, ...]) -> program.Run:
    """Runs the program over a part. This is what an executor is handed, with texts alone, so that any kind of worker
    can carry it."""
    return program.run("resolve", script, lines, options=options)


def ask_behind(question: solving.Question) -> Any:
    """Asks what is shown behind a stop: the other function that an executor is handed."""
    return solving.asked(question)


def solve_at(
    problem: Any,
    settings: Iterable[Mapping[Any, Any]],
    warm: bool = True,
    executor: Any = None,
    progress: Optional[Callable[[int, int], object]] = None,
    chunk: Optional[int] = None,
    max_iters: Optional[int] = None,
    exact: bool = True,
    trust: Optional[str] = None,
    box: Any = None,
    time_limit: Optional[float] = None,
) -> list[Result]:
    """Answers a problem at each of the settings, and returns a `Result` for each, in order, with the setting in it.

    A setting gives values to parameters, or to names of parameters; a parameter that it doesn't name keeps its own
    value. Variables and constraints stay as they are; `result.save()` sets them to a result.

    The settings are cut into parts of at most `chunk` (1,000 at most), and each part is one run of the program.
    Within a part each setting begins at the last answer, unless `warm` is false or variables are to be whole; the
    value is the same, and of several best points another may be told. With an `executor`, of the kind of
    `concurrent.futures.Executor`, it carries the parts: a pool of processes, `Client.get_executor()` of
    dask.distributed, an MPI pool. Its workers need the package, and the program where `dcx.program.find` finds it.
    `progress(done, total)` is called here whenever a part is done, or a setting behind whose stop others are asked.

    Where the program stops at a setting, the exact solver is asked, or the search for whole numbers, as by `solve`,
    each setting by itself: by the executor too, where there is one. `exact=False` leaves that out; `trust`, `box` and
    `time_limit`, the seconds of each, are those of `solve`. The program's own time has no limit here.

    A part whose worker dies, or fails in another way, is asked again once: by the executor, or, where that takes
    nothing any more, by this process. Where it fails again each of its results has the status `solver_error`, and an
    `error` that names the part; the others stay. A setting that has no answer has such a result as well.

    Where the call doesn't come to its end, by an interruption or by what `progress` raises, `problem.partial_results`
    has what was found until then; a smaller `chunk` leaves less of it out.

    Raises `DCPError`, `LimitError` as `Problem.solve`; `ParameterError` where a setting leaves a parameter without a
    value; `KeyError` where it names what is no parameter of the problem, `ValueError` where a value doesn't fit, a
    parameter has two, or a limit is none; `TypeError` where a setting is no dictionary, or what is to carry the parts
    no executor.
    """
    if executor is not None and not callable(getattr(executor, "submit", None)):
        raise TypeError(f"an executor has a method submit, as those of concurrent.futures, and {executor!r} has none")
    script = problem.written
    settings = list(settings)
    lines = [_line(script, setting, number) for number, setting in enumerate(settings)]
    options = [*pivots(max_iters), *(["--warm"] if warm and not problem.is_mixed_integer() else [])]
    parts = list(_cut(lines, _chunk(chunk, len(lines), executor)))
    wishes = Wishes(bool(exact), trust_of(trust), box_of(box), seconds_of(time_limit))
    is_whole = problem.is_mixed_integer()
    carrier = _Carrier(script.text, tuple(options), executor)
    results: list[Optional[Result]] = [None] * len(settings)
    problem._partial = results
    stops: list[tuple[Result, solving.Question]] = []
    done = 0

    def kept(result: Result) -> None:
        results[result.index] = result

    def told(count: int) -> None:
        nonlocal done
        done += count
        if count and progress is not None:
            progress(done, len(settings))

    for part, outcome in carrier.all(parts):
        before = len(stops)
        for result in _results(problem, script, settings, part, outcome):
            stop = None if result.answer is None else result.answer.stop
            if exact and solving.helps(stop, is_whole, max_iters is not None):
                line = lines[result.index]
                stops.append((result, solving.Question(script.text, line, problem._maximized, is_whole, wishes)))
            else:
                kept(result)
        told(part.count - (len(stops) - before))
    for result in _behind(problem, script, stops, executor):
        kept(result)
        told(1)
    problem._partial = None
    return results


def _behind(
    problem: Any, script: Script, stops: list[tuple[Result, solving.Question]], executor: Any
) -> Iterator[Result]:
    """The results of settings at which the program stopped, in order, by what is shown behind that. Where a search is
    interrupted the best point so far is the last result, and the interruption goes on."""
    futures = [_submitted(executor, question) for _, question in stops]
    try:
        for (result, question), future in zip(stops, futures):
            shown, error = None, None
            try:
                shown = solving.behind(result.answer.stop, script, lambda: _asked(question, future))
            except (SolverError, CertificateError) as cause:
                error = cause
            answer = None if shown is None else shown.answer
            yield Result(script, answer, problem._maximized, result.setting, result.index, error, shown=shown)
            if getattr(shown, "why", None) == "interrupted":
                raise KeyboardInterrupt
    finally:
        for future in filter(None, futures):
            future.cancel()


def _submitted(executor: Any, question: solving.Question) -> Optional[Future]:
    """The future of a question; None where no executor takes it."""
    try:
        return None if executor is None else executor.submit(ask_behind, question)
    except Exception:  # the executor takes nothing any more
        return None


def _asked(question: solving.Question, future: Optional[Future]) -> Any:
    """What is shown: what a worker says, or, where that died or failed in another way, what this process finds."""
    if future is not None:
        try:
            return future.result()
        except (KeyboardInterrupt, SystemExit, SolverError, CertificateError):
            raise
        except BaseException:  # some libraries tell of a cancelled future by what is no Exception
            pass
    return ask_behind(question)


def _results(
    problem: Any, script: Script, settings: list, part: Part, outcome: Union[Report, Exception]
) -> Iterator[Result]:
    """The results of a part: from its report, or from what went wrong twice."""
    answers: tuple = (None,) * part.count
    error: Optional[SolverError] = None
    if isinstance(outcome, Exception):
        error = _failed(part, outcome)
    else:
        try:
            answers = taken(outcome, script).answers
        except SolverError as cause:  # the whole run ended without an answer
            error = SolverError(f"{part.name}: {cause.reason}", problem.site)
    for place, answer in enumerate(answers, part.first):
        yield Result(script, answer, problem._maximized, settings[place], place, error)


def _failed(part: Part, cause: Exception) -> SolverError:
    """What is told of a part that failed twice."""
    told = f"{type(cause).__name__}: {cause}"
    error = SolverError(f"{part.name}: no answer, since the worker died or failed twice ({told})")
    error.__cause__ = cause
    return error


class _Carrier:
    """Carries parts out, and each that fails once more."""

    def __init__(self, script: str, options: tuple[str, ...], executor: Any):
        self.script = script
        self.options = options
        self.executor = executor

    def all(self, parts: list[Part]) -> Iterator[tuple[Part, Union[Report, Exception]]]:
        """Each part with its report, or with what it failed by the second time, as they are done."""
        if self.executor is None:
            program.find()
            for part in parts:
                yield part, self._twice(part)
            return
        waiting: dict[Future, tuple[Part, bool]] = {}
        local: Optional[ThreadPoolExecutor] = None
        try:
            todo = [(part, False) for part in parts]
            while todo or waiting:
                for part, again in todo:
                    try:
                        future = (local or self.executor).submit(run_part, self.script, part.lines, self.options)
                    except Exception:  # the executor takes nothing any more
                        local = local or ThreadPoolExecutor(os.cpu_count())
                        future = local.submit(run_part, self.script, part.lines, self.options)
                    waiting[future] = (part, again)
                todo = []
                done, _ = wait(waiting, return_when=FIRST_COMPLETED)
                for future in done:
                    part, again = waiting.pop(future)
                    outcome = _outcome(part, future.result)
                    if isinstance(outcome, Exception) and not again:
                        todo.append((part, True))
                    else:
                        yield part, outcome
        finally:
            for future in waiting:
                future.cancel()
            if local is not None:
                local.shutdown(wait=True)

    def _twice(self, part: Part) -> Union[Report, Exception]:
        """The report of a part that is run in this process; that of a second run where the first one fails."""

        def ask() -> Union[Report, Exception]:
            return _outcome(part, lambda: run_part(self.script, part.lines, self.options))

        outcome = ask()
        return ask() if isinstance(outcome, Exception) else outcome


def _outcome(part: Part, ask: Callable[[], program.Run]) -> Union[Report, Exception]:
    """The report of a part, or what it failed by: a worker's death, a future that was cancelled, what is no report, or
    one of other settings."""
    try:
        run = ask()
        report = read_report(run.report)
    except (KeyboardInterrupt, SystemExit):
        raise
    except Exception as error:
        return error
    except BaseException as error:  # some libraries tell of a cancelled future by what is no Exception
        return RuntimeError(f"{type(error).__name__}: {error}")
    if report.kind == "solved" and len(report.answers) != part.count:
        return RuntimeError(f"the report has {len(report.answers)} answers to {part.count} settings")
    return report


def _chunk(chunk: Optional[int], count: int, executor: Any) -> int:
    """How many settings a part has: as many as are asked for, else enough for four parts for each worker."""
    if chunk is not None:
        return min(whole_number(chunk, "chunk"), MOST_SETTINGS)
    if executor is None:
        return MOST_SETTINGS
    workers = getattr(executor, "_max_workers", None) or os.cpu_count() or 1
    return max(1, min(MOST_SETTINGS, -(-count // (4 * workers))))


def _cut(lines: list[str], chunk: int) -> Iterator[Part]:
    """The parts: at most so many settings each, and no more bytes than a settings file may have."""
    first, size = 0, 0
    for place, line in enumerate(lines):
        length = len(line.encode())
        if place - first == chunk or (size + length > _BYTES and place > first):
            yield Part(first, place - first, "".join(lines[first:place]))
            first, size = place, 0
        size += length
    if first < len(lines):
        yield Part(first, len(lines) - first, "".join(lines[first:]))


def _line(script: Script, setting: Mapping[Any, Any], number: int) -> str:
    """The line of a setting. What is wrong with it is told with its place in the list, from 0."""
    if not isinstance(setting, Mapping):
        kind = type(setting).__name__
        raise TypeError(f"settings[{number}] is a {kind}, and not a dictionary of parameters with their values")
    values = {}
    for key, value in setting.items():
        parameter = script.leaf("parameter", key)
        if parameter is None:
            raise KeyError(f"settings[{number}] names {key!r}, which is no parameter that the problem reaches")
        if parameter in values:
            raise ValueError(f"settings[{number}] has two values of {parameter.name()}: by itself, and by its name")
        try:
            values[parameter] = parameter._tested(value)
        except (ValueError, TypeError) as error:
            raise type(error)(f"settings[{number}]: {error}") from None
    try:
        return script.settings_line(values)
    except ParameterError as error:
        raise ParameterError(f"settings[{number}]: {error.reason}", error.site) from None
