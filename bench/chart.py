"""Draws the chart of the README: a bar for each tool and length of line, as an SVG."""

LENGTHS = [1, 8, 30, 100, 10000]
SHADES = ["#c6dbef", "#9ecae1", "#6baed6", "#3182bd", "#08519c"]
BAR, GAP, LEFT, TOP, HEIGHT = 22, 26, 52, 64, 240


def draw_text(x, y, words, anchor="middle", size=12, more=""):
    return f'<text x="{x:.0f}" y="{y:.0f}" text-anchor="{anchor}" font-size="{size}"{more}>{words}</text>\n'


def draw(means):
    """Draws the chart. `means` has the ratio of each tool at each length."""
    most = max(1.2, *(means[tool][length] for tool in means for length in LENGTHS)) * 1.05
    group = BAR * len(LENGTHS) + GAP
    width, bottom = LEFT + group * len(means) + 10, TOP + HEIGHT

    def scale(ratio):
        return ratio / most * HEIGHT

    parts = [
        f'<svg xmlns="http://www.w3.org/2000/svg" viewBox="0 0 {width} {bottom + 40}" '
        f'width="{width}" height="{bottom + 40}" font-family="sans-serif" fill="#222">\n',
        "<title>Time of ptext divided by the time of GNU's tools, by tool and length of line</title>\n",
        f'<rect width="{width}" height="{bottom + 40}" fill="#fff"/>\n',
        draw_text(LEFT, 20, "Time of ptext / time of GNU's tool (lower is faster)", "start", 14, ' font-weight="bold"'),
        draw_text(LEFT, 44, "bytes a line:", "start"),
    ]
    for index, length in enumerate(LENGTHS):
        x = LEFT + 90 + index * 84
        parts.append(f'<rect x="{x}" y="33" width="14" height="14" fill="{SHADES[index]}"/>\n')
        parts.append(draw_text(x + 20, 44, f"{length:,}", "start"))
    for tenths in range(0, int(most * 4) + 1):
        ratio = tenths / 4
        y = bottom - scale(ratio)
        colour, thick = ("#c00", 1.5) if ratio == 1 else ("#ddd", 1)
        parts.append(
            f'<line x1="{LEFT}" y1="{y:.1f}" x2="{width - 8}" y2="{y:.1f}" stroke="{colour}" stroke-width="{thick}"/>\n'
        )
        parts.append(draw_text(LEFT - 6, y + 4, "GNU 1" if ratio == 1 else f"{ratio:g}", "end", 11))
    for number, (tool, ratios) in enumerate(means.items()):
        left = LEFT + GAP / 2 + number * group
        for index, length in enumerate(LENGTHS):
            x, tall = left + index * BAR, scale(ratios[length])
            parts.append(
                f'<rect x="{x:.0f}" y="{bottom - tall:.1f}" width="{BAR - 2}" height="{tall:.1f}" '
                f'fill="{SHADES[index]}"/>\n'
            )
            parts.append(draw_text(x + (BAR - 2) / 2, bottom - tall - 3, f"{ratios[length]:.2f}".lstrip("0"), size=10))
        parts.append(draw_text(left + BAR * len(LENGTHS) / 2, bottom + 20, tool, size=14))
    return "".join(parts) + "</svg>\n"
