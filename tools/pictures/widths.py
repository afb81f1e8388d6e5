"""How wide a text is drawn, so that nothing is laid over it. The advances are those of DejaVu Sans, a wide font: others need less."""

FIRST = ' '
ADVANCES = (
    317, 400, 459, 837, 636, 950, 779, 274, 390, 390, 500, 837, 317, 360, 317, 336, 636, 636, 636, 636, 636, 636, 636, 636, 636, 636,
    336, 336, 837, 837, 837, 530, 1000, 684, 686, 698, 770, 631, 575, 774, 751, 294, 294, 655, 557, 862, 748, 787, 603, 787, 694, 634,
    610, 731, 684, 988, 685, 610, 685, 390, 336, 390, 837, 500, 500, 612, 634, 549, 634, 615, 352, 634, 633, 277, 277, 579, 277, 974,
    633, 611, 634, 634, 411, 520, 392, 633, 591, 817, 591, 591, 524, 636, 336, 636, 837)
WIDEST = 1000
BOLD = 1.12
FIXED_WIDTH = 0.603


def advance(character):
    index = ord(character) - ord(FIRST)
    return ADVANCES[index] if 0 <= index < len(ADVANCES) else 317 if character == '\u2019' else WIDEST


def text_width(text, size, bold=False):
    return sum(map(advance, text)) * size / 1000 * (BOLD if bold else 1)


def fixed_width(text, size):
    """The width in a font whose characters are all as wide."""
    return len(text) * size * FIXED_WIDTH
