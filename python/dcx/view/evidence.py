"""What is shown by whom: the program, a certificate, this page; with what goes with it to be downloaded."""
from __future__ import annotations

import base64
import gzip
import hashlib
import os
from typing import Optional

from .asking import Found
from .markup import Markup, Part, el

LARGE = 400_000  # bytes of a text that is packed for the page


def evidence(found: Found) -> Markup:
    """The section."""
    parts = [el("h2", "Evidence"), shown_by_program(found)]
    if found.certificate is not None:
        parts.append(by_certificate(found))
    elif found.report.kind == "solved":
        parts.append(el("p", without(found)))
    parts.append(el("p", of_page(found)))
    parts.append(checksums(found))
    return el("section", parts, id="evidence")


def shown_by_program(found: Found) -> Markup:
    """What the program's answers rest on."""
    if found.report.refusal is not None:
        told = (
            "The program is proved to refuse exactly what the written rules refuse, at the first place that breaks "
            "one; the sentences beside it are this package's."
        )
        return el("p", el("b", "The program. "), told)
    parts = [
        "The answers are those of the program dcx, which is proved: it was built after a prover checked what each "
        "function promises. "
    ]
    statuses = {answer.status for answer in found.answers}
    if "optimal" in statuses:
        parts.append("Each point it prints keeps the constraints exactly, and no point is better. ")
    if "infeasible" in statuses:
        parts.append("Where it says infeasible no point keeps the constraints. ")
    if "unbounded" in statuses:
        parts.append("Where it says unbounded the objective goes on for ever along the ray. ")
    if found.irreducible:
        parts.append(
            "That the constraints in the way can't be kept together, and that each of them is needed for that, is its "
            "answer too. "
        )
    if found.narrowed:
        parts.append(
            "Their multipliers were found by the second reading, in Python; that they show it was checked by the "
            "program's word certify. "
        )
    if found.whole:
        parts.append("Some variable is to be whole: no whole point is better, which the nodes of its search show. ")
    return el("p", el("b", "The program. "), parts)


def by_certificate(found: Found) -> Markup:
    """The certificate, what its check said, and how to repeat that."""
    script = os.path.basename(found.names[0])
    stem = os.path.splitext(script)[0] or "script"
    settings = os.path.basename(found.names[1]) if found.given is not None else f"{stem}_settings.txt"
    count = len(found.shown)
    said = found.certified or ""
    missing = count - int(said.split()[1]) if said.startswith("certified ") else 0
    parts: list[Part] = [
        "The numbers of each answer are in a certificate. The program's word ",
        el("code", "certify"),
        ", which solves nothing, went through it and said ",
        el("code", said),
        ". " if not missing else f": {missing} of {count} have none. ",
        "Whoever does so trusts neither the simplex method nor this page; docs/CERTIFICATES.md says how to write "
        "another checker.",
    ]
    contents = {
        f"{stem}_certificate.txt": found.certificate,
        script: found.script.decode("utf-8", "replace"),
        settings: found.settings,
    }
    files = [download(name, content) for name, content in contents.items()]
    unpack = "".join(f"gunzip {name}; " for name, is_packed, _ in files if is_packed)
    command = f"{unpack}python3 -m dcx certify {script} {settings} {stem}_certificate.txt"
    return el(
        "div",
        el("p", el("b", "The certificate. "), parts),
        el("ul", [el("li", link) for _, _, link in files], class_="downloads"),
        el("pre", el("code", command), tabindex=0),
    )


def download(name: str, content: str) -> tuple[str, bool, Markup]:
    """The name of a file, whether it is packed, and a link that has it in it."""
    data = content.encode()
    is_packed = len(data) > LARGE
    kind = "text/plain;charset=utf-8"
    size = f"{len(data):,} bytes"
    if is_packed:
        data, name, kind = gzip.compress(data, mtime=0), f"{name}.gz", "application/gzip"
        size += f", packed {len(data):,}"
    link = el("a", name, href=f"data:{kind};base64,{base64.b64encode(data).decode()}", download=name)
    return name, is_packed, el("span", link, " ", el("span", size, class_="quiet"))


def without(found: Found) -> str:
    """Why there is no certificate."""
    if found.whole:
        return "There is no certificate: answers in whole numbers have none."
    return "There is no certificate: no answer has numbers of 128 bits that show it."


def of_page(found: Found) -> Part:
    """What this page adds, and by what."""
    if found.report.refusal is not None:
        return None
    told = (
        "Slacks are worked out in exact fractions by a second reading of the script in Python, which isn't proved. "
        "Decimals are rounded to six digits; the fractions beside them are the numbers themselves."
    )
    return [el("b", "This page. "), told]


def checksums(found: Found) -> Markup:
    """What was run on what."""
    rows = [("the program", found.checksum), (os.path.basename(found.names[0]), digest(found.script))]
    if found.given is not None:
        rows.append((os.path.basename(found.names[1]), digest(found.given)))
    body = [el("tr", el("th", name, scope="row"), el("td", el("code", value))) for name, value in rows]
    return el("table", el("caption", "Checksums, SHA-256"), el("tbody", body), class_="checksums")


def digest(data: bytes, length: Optional[int] = None) -> str:
    """The SHA-256 of some bytes."""
    return hashlib.sha256(data).hexdigest()[:length]
