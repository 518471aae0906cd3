"""The desk: rule files, cards and slips of a dialect dictionary for people, over the proved library."""

VERSION = '1.0.0'
