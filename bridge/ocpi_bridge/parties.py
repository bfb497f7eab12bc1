"""Parties, as `BE/BEC`: a country code of two characters and a party id of three, compared without case."""


def party_key(party: str) -> str:
    """The text by which parties are compared."""
    return party.upper()


def same_party(one: str, other: str) -> bool:
    return party_key(one) == party_key(other)


def codes(party: str) -> tuple[str, str]:
    """The country code and the party id."""
    country, _, identifier = party.partition("/")
    return country, identifier


def party_of(country: object, identifier: object) -> str:
    """The party of a country code and a party id, such as `country_code` and `party_id` of an object of OCPI."""
    return f"{country}/{identifier}"
