"""Boxes that are asked which of them meet another one, without looking at each. By numpy: an STRtree wants shapes, has
other calls in each version of Shapely, and takes boxes that only touch; SQLite's R-tree rounds to 32 bits. Either is
filtered once more."""

import numpy

BLOCK = 128  # so many boxes that lie near one another are looked at together


class Boxes:
    """Boxes of (least x, least y, greatest x, greatest y), by their numbers."""

    def __init__(self, boxes):
        boxes = numpy.array(boxes, float).reshape(-1, 4)
        count = len(boxes)
        place = numpy.empty(count, int)
        place[numpy.argsort(boxes[:, 0] + boxes[:, 2], kind="stable")] = numpy.arange(count)
        strips = max(1, int((count / BLOCK) ** 0.5))
        self.order = numpy.lexsort((boxes[:, 1], place * strips // max(1, count)))
        self.boxes = boxes[self.order]
        starts = numpy.arange(0, count, BLOCK)
        ends = (numpy.minimum, numpy.minimum, numpy.maximum, numpy.maximum)
        self.blocks = (
            numpy.stack([end.reduceat(self.boxes[:, side], starts) for side, end in enumerate(ends)], axis=1)
            if count
            else boxes
        )

    def meeting(self, box):
        """The numbers of those whose inside meets that of a box, ascending."""
        near = numpy.nonzero(meets(self.blocks, box))[0]
        numbers = (near[:, None] * BLOCK + numpy.arange(BLOCK)).ravel()
        numbers = numbers[numbers < len(self.order)]
        return numpy.sort(self.order[numbers[meets(self.boxes[numbers], box)]]).tolist()


def meets(boxes, box):
    return (boxes[:, 0] < box[2]) & (boxes[:, 2] > box[0]) & (boxes[:, 1] < box[3]) & (boxes[:, 3] > box[1])
