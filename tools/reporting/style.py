"""The style of a page: light or dark as the reader's system is, for windows of any width, and for A4."""
from reporting.svg import NARROW, WIDE

LIGHT = """color-scheme: light; --paper: #fff; --ink: #222; --faint: #5f6368; --grid: #e2e2e2; --rule: #ccc;
  --blue: #0060a8; --green: #007a53; --red: #c1121f; --orange: #b45f06; --purple: #7b2d8b; --warn: #fff1d6;
  --shade: #0003;"""
DARK = """color-scheme: dark; --paper: #15181b; --ink: #e6e8ea; --faint: #a4abb2; --grid: #2e343a;
  --rule: #454c53; --blue: #6cb4f5; --green: #4fc796; --red: #ff7b7b; --orange: #f2a65a; --purple: #cf9df0;
  --warn: #4a3a12; --shade: #000c;"""
CARDS = """  table.verdicts, table.verdicts tbody, table.verdicts tr { display: block; width: 100%; }
  table.verdicts thead, table.verdicts td.none { display: none; }
  table.verdicts th, table.verdicts td { border: 0; display: inline; padding: 0 8px 0 0; min-width: 0; }
  table.verdicts td[data-title]::before { content: attr(data-title) " "; color: var(--faint); font-weight: 400; }
  table.verdicts tr { border-bottom: 1px solid var(--grid); padding: 5px 0; font-size: 14px; line-height: 1.35; }
  table.verdicts .by { display: none; }
  table.verdicts td.over .by { display: inline; }
  .tall.cards { max-height: none; }
  table.verdicts td.time { display: block; padding: 4px 0 0; }
  table.verdicts td.time::before { display: none; }
  .cards svg.strip { width: 100%; height: 18px; }
  .good td.time, .tall.cards td.time { display: none !important; }
  .cards + p { margin-top: 12px; }"""
STYLE = f"""
:root {{ {LIGHT} }}
@media (prefers-color-scheme: dark) {{ :root {{ {DARK} }} }}
@media print {{ :root {{ {LIGHT} }} }}
* {{ box-sizing: border-box; }}
body {{ font: 15px/1.45 system-ui, sans-serif; color: var(--ink); background: var(--paper);
  max-width: {WIDE.width + 32}px; margin: 20px auto; padding: 0 16px; overflow-wrap: break-word; }}
h1 {{ font-size: 24px; line-height: 1.25; margin: 0 0 4px; }}
h1.call {{ margin-top: 48px; padding-top: 16px; border-top: 2px solid var(--rule); }}
a {{ color: var(--blue); }}
h2 {{ font-size: 19px; margin: 32px 0 4px; border-bottom: 1px solid var(--rule); }}
h3 {{ font-size: 16px; margin: 24px 0 2px; overflow-wrap: anywhere; }}
p {{ margin: 4px 0 8px; max-width: 900px; }}
p.about, p.count {{ color: var(--faint); }}
p.count {{ font-size: 13px; margin: 8px 0 0; }}
p.verdict {{ font-size: 18px; margin: 10px 0; overflow-wrap: anywhere; }}
p.cut {{ background: var(--warn); padding: 8px 12px; border-radius: 4px; }}
summary {{ font-size: 16px; font-weight: 600; margin: 20px 0 4px; cursor: pointer; }}
.scroll {{ overflow-x: auto; max-width: 100%; background:
  linear-gradient(to right, var(--paper) 12px, transparent) left / 24px 100% no-repeat local,
  linear-gradient(to left, var(--paper) 12px, transparent) right / 24px 100% no-repeat local,
  linear-gradient(to right, var(--shade), transparent) left / 10px 100% no-repeat,
  linear-gradient(to left, var(--shade), transparent) right / 10px 100% no-repeat; }}
.tall {{ max-height: 560px; overflow-y: auto; border-bottom: 2px solid var(--rule); }}
.tall thead th, .tall tr:first-child th[scope=col] {{ position: sticky; top: 0; background: var(--paper); z-index: 1; }}
svg {{ display: block; font: 12px system-ui, sans-serif; }}
svg.wide {{ width: {WIDE.width}px; height: auto; }}
svg.narrow {{ display: none; width: 100%; min-width: {NARROW.width}px; max-width: 480px; height: auto; }}
svg.strip {{ width: 160px; height: 24px; }}
svg.key {{ flex: none; width: 18px; height: 16px; }}
p.keys {{ display: flex; flex-wrap: wrap; gap: 2px 20px; max-width: none; }}
.keys span {{ display: flex; align-items: center; gap: 5px; }}
table {{ border-collapse: collapse; margin: 8px 0; }}
th, td {{ text-align: left; vertical-align: top; padding: 4px 14px 4px 0; border-bottom: 1px solid var(--grid); }}
th {{ font-weight: 600; }}
td.number, th.number {{ text-align: right; font-variant-numeric: tabular-nums; }}
code {{ font-family: ui-monospace, monospace; white-space: nowrap; }}
.by {{ color: var(--faint); font-size: 13px; font-weight: 400; }}
table.facts th {{ white-space: nowrap; }}
table.calls th, table.calls td:nth-child(5) {{ white-space: nowrap; }}
table.verdicts {{ width: 100%; font-variant-numeric: tabular-nums; }}
table.verdicts .by {{ display: block; line-height: 1.3; }}
table.verdicts th, table.verdicts td {{ overflow-wrap: anywhere; min-width: 74px; padding-right: 10px; }}
table.verdicts thead th {{ font-size: 13px; color: var(--faint); }}
table.verdicts th.who {{ min-width: 150px; }}
table.verdicts td.word {{ font-weight: 700; white-space: nowrap; }}
.good td.word {{ color: var(--green); }}
.unknown td.word {{ color: var(--faint); }}
.bad td.word, td.over {{ color: var(--red); }}
td.over {{ font-weight: 600; }}
table.sources, table.numbers {{ font-size: 13px; }}
table.sources th, table.sources td {{ padding-right: 11px; }}
table.sources td {{ white-space: nowrap; }}
table.sources th[scope=row] {{ min-width: 120px; max-width: 220px; overflow-wrap: anywhere; font-weight: 400; }}
table.sources td.name {{ white-space: normal; overflow-wrap: anywhere; min-width: 165px; }}
table.sources td.end {{ white-space: normal; min-width: 105px; }}
table.sources th {{ vertical-align: bottom; }}
table.sources th[scope=row] {{ vertical-align: top; }}
table.numbers th[scope=row] {{ font-weight: 400; white-space: nowrap; }}
@media screen and (max-width: 760px) {{
  svg.wide {{ display: none; }}
  svg.narrow {{ display: block; }}
  table.facts, table.facts tbody, table.facts tr, table.facts th, table.facts td {{ display: block; }}
  table.facts th {{ border: 0; padding: 6px 0 0; }}
  table.facts td {{ padding: 0 0 6px; }}
  h1 {{ font-size: 20px; }}
  p.verdict {{ font-size: 16px; }}
  table.sources th[scope=row], table.numbers th[scope=row] {{ position: sticky; left: 0; background: var(--paper);
    max-width: 130px; white-space: normal; }}
  table.sources td:nth-child(2):not(.number) {{ white-space: normal; min-width: 110px; overflow-wrap: anywhere; }}
{CARDS}
}}
@media print {{
  @page {{ size: A4 landscape; margin: 10mm; }}
  body {{ margin: 0; padding: 0; max-width: none; font-size: 12px; }}
  .scroll, .tall {{ overflow: visible; max-height: none; background: none; border: 0; }}
  .tall thead th {{ position: static; }}
  svg.wide {{ width: 100%; }}
  svg, tr {{ break-inside: avoid; }}
  h2, h3, p.keys {{ break-after: avoid; }}
  .cue {{ display: none; }}
  .by, p.count {{ font-size: 11px; }}
  table.sources, table.numbers {{ font-size: 10px; }}
  table.sources th, table.sources td, table.numbers td {{ white-space: normal; padding-right: 6px; min-width: 0; }}
}}
"""
assert NARROW.width + 32 <= 375  # a telephone's
