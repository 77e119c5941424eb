"""Follows a log that is kept in etcd, and answers questions about it by the program `pgpeer`."""

__version__ = "0.1.0"
