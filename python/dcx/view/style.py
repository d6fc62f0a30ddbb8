"""The look of a page: light and dark, on a screen, a telephone and on paper."""
from __future__ import annotations

STYLE = """
:root {
  color-scheme: light dark;
  --paper: #fdfdfc; --ink: #1d2126; --quiet: #5c646e; --line: #dfe2e6; --soft: #f3f4f5;
  --accent: #0b5cad; --tint: #e6f0fa;
  --sans: system-ui, -apple-system, "Segoe UI", Roboto, "Noto Sans", "Helvetica Neue", sans-serif;
  --mono: ui-monospace, "SF Mono", "Cascadia Mono", Menlo, Consolas, "DejaVu Sans Mono", monospace;
}
@media (prefers-color-scheme: dark) {
  :root {
    --paper: #14171b; --ink: #e4e7eb; --quiet: #9aa3ae; --line: #2e343b; --soft: #1c2025;
    --accent: #7fb8f5; --tint: #1b2c40;
  }
}
* { box-sizing: border-box; }
html { -webkit-text-size-adjust: 100%; scroll-padding-top: 1rem; }
body { margin: 0; background: var(--paper); color: var(--ink); font: 1rem/1.5 var(--sans); font-variant-numeric: tabular-nums; }
main, header, footer { max-width: 76rem; margin: 0 auto; padding: 0 1.5rem; }
header { padding-top: 2.5rem; }
header .file { margin: 0; color: var(--quiet); font-size: .875rem; }
h1 { margin: .25rem 0 .5rem; font-size: 1.75rem; line-height: 1.25; font-weight: 650; letter-spacing: -.01em; text-wrap: balance; }
h2 { margin: 0 0 .75rem; font-size: 1.125rem; line-height: 1.3; font-weight: 650; }
h3 { margin: 1.25rem 0 .5rem; font-size: 1rem; font-weight: 650; }
p { margin: 0 0 .5rem; max-width: 46rem; overflow-wrap: anywhere; }
.lead { color: var(--quiet); }
section { margin: 2.5rem 0 0; padding-top: 1.25rem; border-top: 1px solid var(--line); }
a { color: var(--accent); text-underline-offset: .15em; }
:focus-visible { outline: 2px solid var(--accent); outline-offset: 2px; border-radius: 2px; }
code, .no { font-family: var(--mono); font-size: .875em; }
small { color: var(--quiet); font-size: .8125em; white-space: normal; overflow-wrap: anywhere; }
.quiet, .comment { color: var(--quiet); }
.mark, mark { color: var(--accent); font-weight: 650; background: none; }
mark { background: var(--tint); border-radius: 3px; padding: .1em .15em; margin: 0 -.15em; box-decoration-break: clone; -webkit-box-decoration-break: clone; }
nav ul, .facts, .downloads { display: flex; flex-wrap: wrap; gap: .25rem 1.25rem; margin: .75rem 0 0; padding: 0; list-style: none; font-size: .875rem; }
.facts { margin-top: 1rem; gap: .5rem 2.25rem; font-size: 1rem; }
.facts dt { color: var(--quiet); font-size: .8125rem; }
.facts dd { margin: 0; font-size: 1.125rem; }
.facts small { display: block; }
.tools { display: flex; flex-wrap: wrap; gap: .25rem 1.5rem; margin: 0 0 .75rem; font-size: .875rem; color: var(--quiet); }
.tools input { accent-color: var(--accent); margin: 0 .35em 0 0; vertical-align: -.1em; }

.listing { border: 1px solid var(--line); border-radius: 8px; overflow: clip; padding: .375rem 0; font-size: .9375rem; }
.line { display: grid; grid-template-columns: 3rem minmax(0, 1fr) minmax(0, 19rem); column-gap: 1rem; padding: .125rem 1rem .125rem 0; border-left: 3px solid transparent; }
.line > code { white-space: pre-wrap; overflow-wrap: anywhere; line-height: 1.6; }
.no { color: var(--quiet); text-align: right; user-select: none; line-height: 1.6; }
.beside { font-size: .875rem; line-height: 1.5; }
.beside, .beside p { margin: 0; }
.beside i { color: var(--quiet); font-style: normal; }
.binds { border-left-color: var(--accent); }
.way { border-left-color: var(--accent); background: var(--tint); }
.below { margin: .125rem 1rem .625rem calc(4rem + 3px); font-size: .875rem; }
.below > * { margin-top: .375rem; }
.named p { margin: 0 0 .125rem; }
.vector { display: flex; flex-wrap: wrap; gap: .25rem .375rem; margin: 0; padding: 0; list-style: none; }
.vector li { display: flex; flex-direction: column; padding: .125rem .5rem .1875rem; border-radius: 4px; background: var(--soft); }
.vector .k { color: var(--quiet); font-size: .6875rem; line-height: 1.3; }
.vector small { line-height: 1.2; }
.wide { overflow-x: auto; max-width: 100%; }
.wide + p, .wide + .quiet { margin-top: .75rem; }
.message { padding: .625rem .875rem; border-left: 3px solid var(--accent); background: var(--soft); border-radius: 0 6px 6px 0; max-width: 46rem; }
.message p:last-child { margin: 0; }

table { border-collapse: collapse; font-size: .875rem; }
th { text-align: left; font-weight: 600; }
.rows th, .rows td { padding: .25rem .875rem .25rem 0; vertical-align: baseline; border-bottom: 1px solid var(--line); }
.rows thead th, .rows thead td { color: var(--quiet); white-space: nowrap; border-bottom-color: var(--quiet); }
.rows .num { text-align: right; white-space: nowrap; }
.rows td code { overflow-wrap: break-word; }
.idle, .idle small { color: var(--quiet); }
.matrix th { padding: .125rem .625rem; color: var(--quiet); font-weight: 400; font-size: .75rem; text-align: right; }
.matrix td { padding: .125rem .625rem; text-align: right; white-space: nowrap; }
.matrix tbody tr:nth-child(odd) td { background: var(--soft); }
.sortable button { all: unset; cursor: pointer; color: inherit; font: inherit; }
.sortable button:focus-visible { outline: 2px solid var(--accent); outline-offset: 2px; }
.sortable button::after { content: " ↕"; color: var(--quiet); opacity: .6; }
.sortable [aria-sort="ascending"] button::after { content: " ↑"; color: var(--accent); opacity: 1; }
.sortable [aria-sort="descending"] button::after { content: " ↓"; color: var(--accent); opacity: 1; }

details > summary { cursor: pointer; }
details.answer { margin: .25rem 0; padding: .25rem 0; border-bottom: 1px solid var(--line); }
details.answer > summary { padding: .25rem 0; }
details.answer[open] { padding-bottom: 1rem; }
figure { margin: 0 0 1.25rem; max-width: 46rem; }
.plots { display: grid; grid-template-columns: repeat(auto-fit, minmax(min(100%, 27rem), 1fr)); gap: 0 2rem; }
figcaption { color: var(--quiet); font-size: .875rem; }
svg { display: block; width: 100%; height: auto; font-family: var(--sans); }
svg text { fill: var(--quiet); font-size: 14px; font-variant-numeric: tabular-nums; }
svg .label { fill: var(--ink); }
svg .grid { stroke: var(--line); }
svg .axis { stroke: var(--quiet); }
svg .dot { fill: var(--accent); }
svg .corner { fill: var(--paper); stroke: var(--accent); stroke-width: 2; }
svg .course { fill: none; stroke: var(--accent); stroke-width: 2; stroke-linejoin: round; }
svg .cross { fill: none; stroke: var(--quiet); stroke-width: 1.5; }
pre { margin: .75rem 0; padding: .625rem .875rem; overflow-x: auto; background: var(--soft); border-radius: 6px; }
.checksums { margin-top: 1rem; }
.checksums caption { text-align: left; color: var(--quiet); padding-bottom: .25rem; }
.checksums th { font-weight: 400; padding-right: 1.25rem; white-space: nowrap; vertical-align: top; }
.checksums code { overflow-wrap: anywhere; font-size: .75rem; }
footer { padding-top: 2rem; padding-bottom: 3rem; color: var(--quiet); font-size: .8125rem; }
body:has(#fractions:not(:checked)) small { display: none; }
body:has(#short:checked) .listing .plain { display: none; }

@media screen and (max-width: 52rem) {
  main, header, footer { padding-left: 1rem; padding-right: 1rem; }
  header { padding-top: 1.5rem; }
  h1 { font-size: 1.375rem; }
  .listing { margin: 0 -1rem; border-left: 0; border-right: 0; border-radius: 0; }
  .line { grid-template-columns: 2.25rem minmax(0, 1fr); column-gap: .625rem; padding-right: .75rem; }
  .beside { grid-column: 2; }
  .below { margin-left: 3.0625rem; margin-right: .75rem; }
  .line > code { font-size: .8125rem; }
  svg text { font-size: 18px; }
}
@media print {
  :root { color-scheme: light; --paper: #fff; --ink: #000; --quiet: #444; --line: #bbb; --soft: #f4f4f4; --accent: #0b4a8b; --tint: #eef3f8; }
  @page { margin: 16mm 14mm; }
  body { font-size: 9.5pt; print-color-adjust: exact; -webkit-print-color-adjust: exact; }
  main, header, footer { max-width: none; padding: 0; }
  nav, .tools, .sortable button::after, details.answer:not([open]) { display: none; }
  h1 { font-size: 16pt; }
  section { margin-top: 1.25rem; padding-top: .75rem; break-inside: auto; }
  h2, h3, summary { break-after: avoid; }
  .line, tr, figure, .message, .vector li { break-inside: avoid; }
  .line { grid-template-columns: 2rem minmax(0, 1fr) minmax(0, 15rem); }
  .listing, .wide { overflow: visible; }
  .below { margin-left: 3rem; }
  details:not(.answer)::details-content { content-visibility: visible; height: auto; }
  a { color: inherit; text-decoration: none; }
}
"""
