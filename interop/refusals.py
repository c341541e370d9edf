"""What calls of the package krb refuse, which the script has on its path."""

from krb import Refused


def refusal_of(call, *arguments, **words):
    """The refusal that a call raises; None where it returns."""
    try:
        call(*arguments, **words)
        return None
    except Refused as refused:
        return refused


def rule_of(call, *arguments, **words):
    """The name of the rule by which a call refuses; None where it returns."""
    refused = refusal_of(call, *arguments, **words)
    return None if refused is None else refused.rule.name


def status_of(call, *arguments, **words):
    """The status with which a call refuses; None where it returns."""
    refused = refusal_of(call, *arguments, **words)
    return None if refused is None else refused.status
