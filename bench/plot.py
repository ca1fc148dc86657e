"""A picture of ratios, as SVG: a bar for each operation, the short texts on the left and the others on the right."""
import html

STEP, TOP, WIDTH, LABEL = 13, 46, 900, 186
SCALE = 110  # so many pixels are a ratio of 1
MOST = 2.0  # a longer bar is cut there
COLORS = ((1.0, "#2a7f62"), (1.25, "#c9a227"), (float("inf"), "#b5432f"))


def bar(left, at, name, ratio):
    color = next(color for limit, color in COLORS if ratio <= limit)
    x, width = left + LABEL, min(ratio, MOST) * SCALE
    return (f'<text x="{x - 5}" y="{at + 9}" text-anchor="end">{html.escape(name)}</text>'
            f'<rect x="{x}" y="{at + 1}" width="{width:.1f}" height="{STEP - 3}" fill="{color}"/>'
            f'<text x="{x + width + 3:.1f}" y="{at + 9}" stroke="#fff" stroke-width="3" paint-order="stroke">'
            f'{ratio:.2f}</text>')


def picture(rows):
    """The bars of rows: of each whether its texts are short, its name and its ratio."""
    halves = [[(name, ratio) for is_short, name, ratio in rows if is_short == wanted] for wanted in (True, False)]
    height = TOP + STEP * max(map(len, halves)) + 8
    lines = [f'<svg xmlns="http://www.w3.org/2000/svg" width="{WIDTH}" height="{height}" '
             f'viewBox="0 0 {WIDTH} {height}" font-family="sans-serif" font-size="10">',
             f'<rect width="{WIDTH}" height="{height}" fill="#fff"/>',
             '<text x="8" y="16" font-size="12">Our instructions as parts of those of upstream with link-time '
             'optimization and our limits; the dashed line is 1</text>']
    for left, title, bars in ((0, "short texts", halves[0]), (WIDTH // 2, "other texts", halves[1])):
        x, bottom = left + LABEL + SCALE, TOP + STEP * len(bars)
        lines += [f'<text x="{left + LABEL}" y="{TOP - 8}" font-weight="bold">{title}</text>',
                  f'<path d="M{x} {TOP - 3}V{bottom}" stroke="#222" stroke-dasharray="3 2"/>',
                  *(bar(left, TOP + STEP * number, name, ratio) for number, (name, ratio) in enumerate(bars))]
    return "\n".join([*lines, "</svg>", ""])
