"""The marks of which a picture is made, and their colours in light and in dark."""

from html import escape
from typing import Dict

LETTERS = {"Serve": "S", "NeedUpThru": "U", "NeedLog": "L", "Short": "F", "Incomplete": "I", "Waiting": "W", "Down": "D",
           "NoPrimary": "N", "Unknown": "?"}

LIGHT = {
    "page": "#ffffff", "text": "#1b2128", "soft": "#56616d", "line": "#dfe4ea", "axis": "#9aa4af",
    "wrote": "#2f6fb5", "on-wrote": "#ffffff", "idle": "#8a95a2", "on-idle": "#1b2128", "now": "#d9c8f2", "now-edge": "#6d3fb0",
    "on-now": "#2b1650", "band": "#f6f1fd", "Serve": "#1f7a4a", "NeedUpThru": "#37738f", "NeedLog": "#776a12", "Short": "#a85400",
    "Incomplete": "#a8321c", "Waiting": "#8a6100", "Down": "#b3202c", "NoPrimary": "#555e68", "Unknown": "#e3e7ec", "on-Unknown": "#56616d", "on-verdict": "#ffffff",
    "blocks": "#b3202c", "unheard": "#b37d0a", "boots": "#1f7a4a", "falls": "#b3202c",
}
DARK = {
    "page": "#14181d", "text": "#e8ecf1", "soft": "#a4afbb", "line": "#2a313a", "axis": "#66717d",
    "wrote": "#5b9be0", "on-wrote": "#0b1622", "idle": "#5f6c7a", "on-idle": "#ffffff", "now": "#4a3670", "now-edge": "#b692f0",
    "on-now": "#f3ebff", "band": "#1d1828", "Serve": "#4cc38a", "NeedUpThru": "#6fb7d8", "NeedLog": "#cdbb4a", "Short": "#f0a050",
    "Incomplete": "#f08a6c", "Waiting": "#e8b64c", "Down": "#f2727c", "NoPrimary": "#9aa4af", "Unknown": "#2a313a", "on-Unknown": "#a4afbb", "on-verdict": "#0f1317",
    "blocks": "#f2727c", "unheard": "#e8b64c", "boots": "#4cc38a", "falls": "#f2727c",
}


def rules(colour: Dict[str, str]) -> str:
    """The style sheet's rules that have to do with colour."""
    lines = [
        f".page{{fill:{colour['page']}}} .band{{fill:{colour['band']}}}",
        f"text{{fill:{colour['text']}}} .soft{{fill:{colour['soft']}}}",
        f".line{{stroke:{colour['line']}}} .axis{{stroke:{colour['axis']}}} .fold{{fill:{colour['line']}}}",
        f".wrote{{fill:{colour['wrote']}}} .idle{{fill:{colour['idle']}}}",
        f".now{{fill:{colour['now']};stroke:{colour['now-edge']}}} .edge{{stroke:{colour['now-edge']}}}",
        f".on-wrote{{fill:{colour['on-wrote']}}} .on-idle{{fill:{colour['on-idle']}}} .on-now{{fill:{colour['on-now']}}}",
        f".alone{{stroke:{colour['soft']}}} .on-verdict{{fill:{colour['on-verdict']}}}",
        f".on-Unknown{{fill:{colour['on-Unknown']}}}",
        f".blocks{{fill:{colour['blocks']}}} .unheard{{stroke:{colour['unheard']}}}",
        f".boots{{fill:{colour['boots']}}} .falls{{fill:{colour['falls']}}}",
        *(f".{verdict}{{fill:{colour[verdict]}}}" for verdict in LETTERS),
    ]
    return "\n".join(lines)


def style() -> str:
    return f"""<style>
text{{font-family:system-ui,"DejaVu Sans",Arial,sans-serif;font-size:12px}}
.title{{font-size:16px;font-weight:600}} .helps{{font-size:14px;font-weight:600}} .small{{font-size:10px}} .mid{{text-anchor:middle}} .end{{text-anchor:end}}
.clear{{fill-opacity:0}} .now{{stroke-width:1.5}} .alone,.unheard{{fill:none;stroke-width:1.5}} .alone{{stroke-dasharray:3 2}}
.edge{{stroke-width:1.5;stroke-dasharray:5 3}}
{rules(LIGHT)}
@media (prefers-color-scheme:dark){{
{rules(DARK)}
}}
</style>"""


def text(x: float, y: float, words: str, kind: str = "") -> str:
    return f'<text x="{x:.1f}" y="{y:.1f}"' + (f' class="{kind}"' if kind else "") + f">{escape(words)}</text>"


def rect(x: float, y: float, width: float, height: float, kind: str, tip: str = "", round_by: int = 0) -> str:
    corners = f' rx="{round_by}"' if round_by else ""
    head = f'<rect x="{x:.1f}" y="{y:.1f}" width="{width:.1f}" height="{height:.1f}" class="{kind}"{corners}'
    return f"{head}><title>{escape(tip)}</title></rect>" if tip else f"{head}/>"


def line(x: float, y: float, to_x: float, to_y: float, kind: str) -> str:
    return f'<line x1="{x:.1f}" y1="{y:.1f}" x2="{to_x:.1f}" y2="{to_y:.1f}" class="{kind}"/>'


def triangle(x: float, y: float, upward: bool) -> str:
    points = ((x, y + 6), (x + 7, y + 6), (x + 3.5, y)) if upward else ((x, y), (x + 7, y), (x + 3.5, y + 6))
    place = " ".join(f"{a:.1f},{b:.1f}" for a, b in points)
    return f'<polygon points="{place}" class="{"boots" if upward else "falls"}"/>'


def room_for(words: str, size: int = 12) -> float:
    """About how wide the words are, rather more than less."""
    return len(words) * size * 0.62
