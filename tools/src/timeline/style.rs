//! Colours and strokes. The colours are Okabe and Ito's, which people who are blind to some colours
//! tell apart too; and no fate is told by its colour alone.

pub const STYLE: &str = "\
svg { color-scheme: light dark; --ground: #ffffff; --ink: #1b1f24; --faint: #6a737d; --grid: #e3e6ea; --edge: #c5cad0;
  --met: #0072b2; --broken: #b84700; --wait: #1b1f24; --gone: #7f8790; }
@media (prefers-color-scheme: dark) {
  svg { --ground: #14171c; --ink: #e8eaed; --faint: #a2aab4; --grid: #2b3038; --edge: #464d57;
    --met: #56b4e9; --broken: #ff8c42; --wait: #e8eaed; --gone: #8a929c; }
}
text { font: 11px ui-monospace, 'DejaVu Sans Mono', Menlo, Consolas, monospace; fill: var(--ink);
  paint-order: stroke; stroke: var(--ground); stroke-width: 5px; stroke-linejoin: round; }
.title { font: 600 16px system-ui, 'DejaVu Sans', sans-serif; }
.verdict { font: 13px system-ui, 'DejaVu Sans', sans-serif; }
.lane { font-weight: 600; }
.date, .refused { fill: var(--faint); }
.ground { fill: var(--ground); }
.edge { stroke: var(--edge); }
.grid { stroke: var(--grid); }
.tick { stroke: var(--ink); stroke-width: 1.5; }
.tick-refused { stroke: var(--gone); stroke-dasharray: 2 2; }
.met { fill: var(--met); }
.rest { fill: var(--met); opacity: 0.3; }
.moment { fill: var(--ground); stroke: var(--met); stroke-width: 2; }
.broken { fill: var(--broken); }
.cross { stroke: var(--broken); stroke-width: 2.5; }
.ahead { fill: none; stroke: var(--broken); stroke-width: 1.5; stroke-dasharray: 4 3; }
.waiting { fill: none; stroke: var(--wait); stroke-width: 1.2; }
.lapsed { fill: var(--gone); }
.never { fill: var(--ground); stroke: var(--gone); stroke-width: 2; }
.beyond { fill: none; stroke: var(--faint); stroke-width: 1.5; }
.dropped { fill: none; stroke: var(--gone); stroke-dasharray: 2 3; }
.mark-breach { stroke: var(--broken); stroke-width: 2; }
.mark-forecast { stroke: var(--broken); stroke-width: 1.5; stroke-dasharray: 5 4; }
.mark-fulfilled { stroke: var(--met); stroke-width: 2; }
.says-breach, .says-forecast { fill: var(--broken); font-weight: 600; }
.says-fulfilled { fill: var(--met); font-weight: 600; }
";
