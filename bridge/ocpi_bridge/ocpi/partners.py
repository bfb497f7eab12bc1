"""The parties that a bridge deals with: the tokens by which each side knows the other, and where their OCPI stands.

What registering gave is kept in the state, and goes before the configuration, also when the registration has ended. A
token of the configuration that no registration used up yet lets its partner register, also once more: so whoever lost
tokens on the way begins again with a new one. All of it is in memory, and read anew where anybody changed the state, as
another process may register.
"""
import hashlib
import secrets
from collections.abc import Mapping
from dataclasses import dataclass, field, fields, replace

from ..configuration import Configuration, PartnerSettings
from ..parties import party_key, same_party
from ..state import State

# The URL of each module and role (`SENDER` or `RECEIVER`).
Endpoints = Mapping[tuple[str, str], str]


@dataclass(frozen=True)
class Partner(PartnerSettings):
    """One party, as one of its tokens shows it. Without `is_registered` that token opens nothing but registering."""

    endpoints: Endpoints = field(default_factory=dict)
    is_registered: bool = False


@dataclass(frozen=True)
class Registration:
    """What is kept of a partner. The four behind `is_decided` count only where that is so."""

    is_decided: bool = False
    token: str | None = None
    their_token: str | None = None
    versions_url: str | None = None
    used: str | None = None
    former: str | None = None
    offer: str | None = None
    details_of: str | None = None


COLUMNS = ", ".join(each.name for each in fields(Registration))


class Partners:
    """All partners of the configuration, with what the state has of them."""

    def __init__(self, configuration: Configuration, state: State) -> None:
        self._configuration, self._state = configuration, state
        # What is kept inside is kept together, or not at all.
        self.together = state.transaction
        # Of which settings and of which version of the state this is: what is known of each partner, and whom each
        # token shows.
        self._read_of: object = None
        self._partners: dict[str, Partner] = {}
        self._shown: dict[bytes, dict[str, Partner]] = {}
        self._former: set[str] = set()
        # Tokens are looked up by a digest that nobody else can make: so how long that takes tells nothing of them.
        self._secret = secrets.token_bytes(32)

    def sharing(self, token: str, is_base64: bool = True) -> list[Partner]:
        """The partners that present a token, in Base64 or as it is. Takes as long whichever it is.

        A registration's new token ends the one of before when it is used: until then its partner may not have it.
        """
        self._known()
        found = self._shown.get(self._digest(token, is_base64), {})
        for key in [key for key in found if key in self._former and token == self._partners[key].token]:
            self._keep(key, former=None)
        return list(found.values())

    def of(self, party: str) -> Partner:
        """The partner of a party. Raises KeyError where the configuration has none."""
        return self._known()[party_key(party)]

    def has(self, party: str) -> bool:
        """Whether there is one, as long as no other configuration is read."""
        return party_key(party) in self._known()

    def all(self) -> list[Partner]:
        return list(self._known().values())

    def _digest(self, token: str, is_base64: bool) -> bytes:
        return hashlib.blake2b(token.encode("utf-8", "surrogatepass"), key=self._secret,
                               person=b"base64" if is_base64 else b"as it is").digest()

    def _known(self) -> Mapping[str, Partner]:
        """The partners by their parties. Reads settings and state, where one has changed."""
        read_of = self._configuration.partners, self._state.version()
        if read_of == self._read_of:
            return self._partners
        self._partners, self._shown, self._former = {}, {}, set()
        for settings in self._configuration.partners:
            key = party_key(settings.party)
            kept = self._kept(key)
            partner = self._partners[key] = self._partner(settings, kept)
            unused = settings.token if kept.is_decided and kept.used != settings.token else None
            registering = Partner(settings.party, settings.kind, token_base64=settings.token_base64)
            for known, shown in ((kept.former, partner), (partner.token, partner),
                                 (kept.offer, registering), (unused, registering)):
                if known:
                    digest = self._digest(known, settings.token_base64)
                    self._shown.setdefault(digest, {})[key] = replace(shown, token=known)
            if kept.former:
                self._former.add(key)
        self._read_of = read_of
        return self._partners

    def _partner(self, settings: PartnerSettings, kept: Registration) -> Partner:
        """A partner by its settings, and by what is kept in the place of them."""
        known: Registration | PartnerSettings = kept if kept.is_decided else settings
        listed = self._state.query("SELECT module, role, url FROM endpoint WHERE party = ?", party_key(settings.party))
        return Partner(settings.party, settings.kind, known.token, known.their_token, known.versions_url,
                       settings.token_base64, settings.own_references,
                       {(module, role): url for module, role, url in listed if kept.details_of == known.versions_url},
                       known.their_token is not None)

    def register(self, party: str, token: str, their_token: str | None, versions_url: str | None,
                 endpoints: Endpoints, former: str | None = None) -> None:
        """Keeps both tokens of a registration, in place of what was there, and ends an offer.

        A `former` token shows the partner too, until it uses the new one.
        """
        self._keep(party, token=token, their_token=their_token, versions_url=versions_url, offer=None, former=former,
                   used=self._token_of(party), is_decided=True)
        self.set_endpoints(party, versions_url, endpoints)

    def unregister(self, party: str) -> None:
        """Ends a registration: neither token is used any more."""
        self._keep(party, token=None, their_token=None, versions_url=None, former=None,
                   used=self._token_of(party), is_decided=True)

    def _token_of(self, party: str) -> str | None:
        """The token of the configuration."""
        return next(settings.token for settings in self._configuration.partners if same_party(settings.party, party))

    def offer(self, party: str) -> str:
        """A new token, of at most 64 characters, by which the partner may look up this bridge while it registers."""
        token = secrets.token_urlsafe(32)
        self._keep(party, offer=token)
        return token

    def set_endpoints(self, party: str, versions_url: str | None, endpoints: Endpoints) -> None:
        """Keeps where the modules of a partner stand, by its version details. None: they have to be asked again."""
        with self._state.transaction():
            self._keep(party, details_of=versions_url)
            self._state.query("DELETE FROM endpoint WHERE party = ?", party_key(party))
            for (module, role), url in endpoints.items():
                self._state.query("INSERT INTO endpoint (party, module, role, url) VALUES (?, ?, ?, ?)",
                                  party_key(party), module, role, url)

    def _kept(self, key: str) -> Registration:
        rows = self._state.query(f"SELECT {COLUMNS} FROM registration WHERE party = ?", key)
        return Registration(*rows[0]) if rows else Registration()

    def _keep(self, party: str, **members: object) -> None:
        self._read_of = None
        with self._state.transaction():
            self._state.query("INSERT OR IGNORE INTO registration (party) VALUES (?)", party_key(party))
            self._state.query(f"UPDATE registration SET {', '.join(f'{name} = ?' for name in members)} WHERE party = ?",
                              *members.values(), party_key(party))
