"""The style of the page, in light and in dark."""

STYLE = """
:root { color-scheme: light dark; --ink: #1b1f24; --soft: #59636e; --page: #fff; --field: #f5f7f9; --line: #d0d7de; --closed: #e6e9ed;
  --asked: #1f5fa8; --wash: #dbe9f8; --before: #0b6b5d; --after: #a04a00; --wrong: #a61b29; }
@media (prefers-color-scheme: dark) {
  :root { --ink: #e2e7ec; --soft: #9aa6b2; --page: #14181d; --field: #1d232a; --line: #3a434d; --closed: #333c46;
    --asked: #7db7f5; --wash: #1c3450; --before: #56c9b3; --after: #f0a35e; --wrong: #ff8f8f; }
}
* { box-sizing: border-box; }
body { font: 16px/1.5 system-ui, sans-serif; color: var(--ink); background: var(--page); max-width: 70rem; margin: 0 auto; padding: 1.25rem; }
h1 { font-size: 1.35rem; margin: 0; } h2 { font-size: 1rem; margin: 0 0 .5rem; }
p { margin: .4rem 0; } code { font-family: ui-monospace, monospace; font-size: .92em; overflow-wrap: anywhere; }
a { color: var(--asked); text-underline-offset: .15em; }
header { display: flex; flex-wrap: wrap; gap: .25rem 1.5rem; align-items: baseline; border-bottom: 1px solid var(--line); padding-bottom: .75rem; }
header p { color: var(--soft); margin: 0; }
nav { display: flex; flex-wrap: wrap; gap: .4rem; align-items: center; margin: .9rem 0; }
nav a, .items a { display: inline-block; border: 1px solid var(--line); border-radius: .4rem; padding: .1rem .55rem; text-decoration: none; background: var(--field); }
nav a[aria-current] { background: var(--asked); border-color: var(--asked); color: var(--page); }
section { margin: 1.25rem 0; }
form { display: flex; flex-wrap: wrap; gap: .5rem; align-items: center; }
input, button { font: inherit; color: inherit; background: var(--field); border: 1px solid var(--line); border-radius: .4rem; padding: .3rem .6rem; }
input { min-width: 9rem; } button { cursor: pointer; } a:focus-visible, input:focus-visible, button:focus-visible { outline: 2px solid var(--asked); outline-offset: 2px; }
#answer { background: var(--field); border: 1px solid var(--line); border-left: .35rem solid var(--asked); border-radius: .4rem; padding: .8rem 1.1rem; }
#answer .word { font-size: 1.9rem; font-weight: 650; line-height: 1.1; margin: .1rem 0 .3rem; }
#answer.hidden, #answer.unknown { border-left-color: var(--soft); }
#notice { border: 1px solid var(--wrong); border-left-width: .35rem; border-radius: .4rem; padding: .6rem 1.1rem; overflow-wrap: anywhere; }
ol.chain, ul.items { list-style: none; padding: 0; margin: .5rem 0; display: flex; flex-wrap: wrap; gap: .4rem; align-items: center; }
ol.chain .via { color: var(--soft); } ul.items, ol.chain { max-height: 14rem; overflow: auto; }
.pair { display: grid; grid-template-columns: repeat(auto-fit, minmax(18rem, 1fr)); gap: 1rem 2rem; }
.before h2 { color: var(--before); } .after h2 { color: var(--after); } .asked-item { border-color: var(--asked) !important; background: var(--wash) !important; }
.note { color: var(--soft); font-size: .9rem; } pre { background: var(--page); border: 1px solid var(--line); border-radius: .4rem; padding: .6rem .8rem; overflow: auto; font-size: .85rem; margin: .5rem 0; }
details { border-top: 1px solid var(--line); padding: .6rem 0; } summary { cursor: pointer; }
#answer details { border: 0; padding: .3rem 0 0; }
table { border-collapse: collapse; width: 100%; font-size: .9rem; } th, td { border: 1px solid var(--line); padding: .25rem .5rem; text-align: left; vertical-align: top; }
figure { margin: 0; } figcaption { color: var(--soft); font-size: .85rem; margin-top: .5rem; }
.frame { overflow: auto; max-height: 85vh; border: 1px solid var(--line); border-radius: .4rem; padding: .75rem; text-align: center; }
svg .graph > polygon { fill: none; } svg text { fill: var(--ink); font-family: system-ui, sans-serif; }
svg .node polygon, svg .node ellipse, svg .node polyline, svg .node path, svg .cluster polygon, svg .cluster path, svg .edge path { stroke: var(--ink); }
svg .edge polygon { fill: var(--ink); stroke: var(--ink); } svg a text { fill: var(--asked); text-decoration: underline; }
svg .closed polygon, svg .node polygon[fill='#e5e5e5'] { fill: var(--closed); } svg a:hover path, svg a:hover ellipse { stroke-width: 2.5; }
svg .before text { fill: var(--before); } svg .before path, svg .before ellipse { stroke: var(--before); stroke-width: 2; } svg .before.edge polygon { fill: var(--before); stroke: var(--before); }
svg .after text { fill: var(--after); } svg .after path, svg .after ellipse { stroke: var(--after); stroke-width: 2; } svg .after.edge polygon { fill: var(--after); stroke: var(--after); }
svg .path path, svg .path > g > polygon, svg .path > polygon, svg .path ellipse, svg .path polyline { stroke: var(--asked); stroke-width: 2; } svg .path.edge polygon { fill: var(--asked); stroke: var(--asked); }
svg .asked text { fill: var(--asked); font-weight: 700; } svg .asked path, svg .asked ellipse { stroke: var(--asked); stroke-width: 2; }
svg .asked ellipse { fill: var(--wash); } svg .asked.edge polygon { fill: var(--asked); stroke: var(--asked); }
"""
