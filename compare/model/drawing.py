"""Parts of an SVG picture, for compare/crowds/crowd and compare/stacks/intervals."""
INK = "#333"
BLUE, GREEN, RED = "#0060a8", "#007a53", "#c1121f"


def text(x, y, words, anchor="start", colour=INK):
    return f'<text x="{x:.1f}" y="{y:.1f}" text-anchor="{anchor}" fill="{colour}">{words}</text>'


def line(x1, y1, x2, y2, colour=INK, more=""):
    return f'<line x1="{x1:.1f}" y1="{y1:.1f}" x2="{x2:.1f}" y2="{y2:.1f}" stroke="{colour}" {more}/>'
