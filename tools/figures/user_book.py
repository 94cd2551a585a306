"""The pictures of the user's book, each by its name in docs/pictures."""

from .flow_over_density import flow_picture
from .giving_way import giving_way_picture
from .junction_cases import diverge_picture, merge_picture
from .regions import regions_picture
from .statuses import statuses_picture

PICTURES = {"flow-over-density": flow_picture, "merge-cases": merge_picture, "diverge-cases": diverge_picture,
            "regions": regions_picture, "statuses": statuses_picture, "giving-way": giving_way_picture}
