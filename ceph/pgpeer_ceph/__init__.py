"""From a Ceph cluster whose groups don't serve to the reason why, by way of a script for pgpeer."""

__version__ = "0.1.0"
