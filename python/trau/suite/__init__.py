"""A conformance suite for GSM full rate: rules as data, cases that exercise them, peers that are
held against them, and edits of the model that each case must catch (docs/CONFORMANCE.md)."""
