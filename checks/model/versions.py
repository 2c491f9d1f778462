"""The versions of images, as random systems know them."""

from typing import NamedTuple

from common.services import SERVICES


class Version(NamedTuple):
    """A version: how many activations, and how many wakeups, of a task its systems queue, whether its bodies have
    elements of arrays, and how many services it has, the first ones."""

    number: int
    queue_limit: int
    has_elements: bool
    service_count: int

    @property
    def services(self):
        return SERVICES[: self.service_count]


VERSIONS = {
    1: Version(1, queue_limit=1, has_elements=False, service_count=58),
    2: Version(2, queue_limit=1, has_elements=True, service_count=58),
    3: Version(3, queue_limit=255, has_elements=True, service_count=59),
}
NEWEST = VERSIONS[3]

# How likely each is, where no version is asked for.
SHARES = {1: 1, 2: 2, 3: 9}
