"""Ticks and numbers of plots that do not overlap: they are turned, thinned out or left away where they would."""

import textwrap

# The sizes of the numbers in a map, from the first on, until all of them fit.
SIZES = (8, 7, 6, 5)


def overlap(boxes):
    """Whether one of the boxes, which stand in a row, overlaps the next, or nearly so."""
    return any(one.padded(2).overlaps(other) for one, other in zip(boxes, boxes[1:]))


def boxes_of(figure, texts):
    """Returns where texts stand in the figure, once its layout is made."""
    figure.draw_without_rendering()
    return [text.get_window_extent() for text in texts]


def name_ticks(figure, axes, names):
    """Has a tick with each name, from 0 on along the bottom. Names that would overlap are turned."""
    axes.set_xticks(range(len(names)), names)
    for turned in (30, 90):
        labels = axes.get_xticklabels()
        if not overlap_turned(figure, axes, labels):
            return
        for label in labels:
            label.set(rotation=turned, ha="right", va="center" if turned == 90 else "top", rotation_mode="anchor")


def overlap_turned(figure, axes, labels):
    """Whether labels overlap. Of turned ones the lines of text may not come too near to each other."""
    boxes = boxes_of(figure, labels)
    if not labels or labels[0].get_rotation() == 0:
        return overlap(boxes)
    places = axes.transData.transform([(place, 0) for place in axes.get_xticks()])[:, 0]
    height = 2.2 * labels[0].get_fontsize() * figure.dpi / 72
    return any(other - one < height for one, other in zip(places, places[1:]))


def number_ticks(figure, axis, places, texts):
    """Has a tick at each place. The last one has its text, and of the others each whose text overlaps none after it."""
    axis.set_ticks(places, texts)
    axis.set_ticks([], minor=True)
    boxes = boxes_of(figure, axis.get_ticklabels())
    shown, after = list(texts), None
    for place in reversed(range(len(boxes))):
        if after is not None and overlap([boxes[place], after]):
            shown[place] = ""
        else:
            after = boxes[place]
    axis.set_ticks(places, shown)


def fit_label(figure, label, text, most):
    """Has a label that stands upright in so many lines that it stays within the figure, at most `most` characters each."""
    for width in range(most, 8, -2):
        label.set_text(textwrap.fill(text, width))
        (box,) = boxes_of(figure, [label])
        if box.y0 >= 0 and box.y1 <= figure.bbox.height:
            return


def fit_numbers(figure, axes, texts):
    """Has the numbers of a map small enough for its fields; where none is, there are no numbers, only shades."""
    corners = axes.transData.transform([(0, 0), (1, 1)])
    for size in SIZES:
        for text in texts:
            text.set_fontsize(size)
        boxes = boxes_of(figure, texts)
        width, height = abs(corners[1] - corners[0])
        if all(box.width < 0.95 * width and box.height < 0.95 * height for box in boxes):
            return
    for text in texts:
        text.remove()
