"""A viewer of another origin, whose pages may look (the CORS protocol of the Fetch standard)."""
import pathlib

from ..client import HOST
from ..tally import Tally
from ..web_client import Response
from .common import Pair, entry_octets

VIEWER = "https://viewer.hospital.example:8443"
# Origins that are not the viewer's, though they look like it.
OTHERS = ["https://viewer.hospital.example", "http://viewer.hospital.example:8443",
          "https://viewer.hospital.example:84430", "https://viewer.hospital.example:8443/",
          "HTTPS://VIEWER.HOSPITAL.EXAMPLE:8443", "https://x.viewer.hospital.example:8443",
          "viewer.hospital.example:8443", f"{VIEWER} {VIEWER}", "*", "null", ""]
SEARCHED = ["rs/studies", "rs/studies?PatientName=DOE*&limit=1", "rs/studies/1.2.0/series",
            "rs/studies/1.2.0/series/1.2.0.1/instances", "rs/studies/1.2.0/instances?limit=2",
            "rs/series", "worklist", "steps", "counts"]
UNSEARCHED = ["/", "/page.css", "/page.js", "/health", "/metrics", "/backup", "/nowhere",
              "/NORTH/worklist/S2", "/NORTH/nowhere"]


def asking(method: str) -> list[str]:
    """The fields of a CORS-preflight request for a method (section 4.8 of the Fetch standard)."""
    return [f"Origin: {VIEWER}", f"Access-Control-Request-Method: {method}",
            "Access-Control-Request-Headers: authorization", "Sec-Fetch-Site: cross-site",
            "Sec-Fetch-Mode: cors"]


def has_fields(told: Response, **wanted: str) -> bool:
    """Whether a response has fields, whose names have underscores for hyphens."""
    return all(told.fields.get(name.replace("_", "-")) == value for name, value in wanted.items())


def viewers(tally: Tally, folder: pathlib.Path) -> None:
    sent = [f"Origin: {VIEWER}", "Sec-Fetch-Site: cross-site", "Sec-Fetch-Mode: cors"]
    with Pair(folder, web_host="dicom.hospital.example", web_origin=VIEWER) as pair:
        pair.fill()
        for path in SEARCHED:
            target = f"/NORTH/{path}"
            for name in ("NORTH", "SOUTH", None):
                for method in ("GET", "HEAD"):
                    pair.compare(tally, "the viewer looks", method, target, name, fields=sent)
            for method in ("POST", "DELETE", "PUT", "OPTIONS"):
                pair.compare(tally, "the viewer does more", method, target, "NORTH", fields=sent)
            for method in ("GET", "HEAD", "POST", "DELETE", "get", "GET, HEAD", ""):
                pair.compare(tally, f"leave for {method!r}", "OPTIONS", target,
                             fields=asking(method))
            for fields in (list[str](), sent):
                pair.compare(tally, "another method with a wish", "GET", target, "NORTH",
                             fields=[*fields, "Access-Control-Request-Method: GET"])
        for target in UNSEARCHED:
            for method in ("GET", "HEAD", "POST", "DELETE"):
                pair.compare(tally, "what is not searched", method, target, "*", fields=sent)
            pair.compare(tally, "leave where nothing is searched", "OPTIONS", target,
                         fields=asking("GET"))
        pair.compare(tally, "an entry of the viewer", "POST", "/NORTH/worklist", "NORTH",
                     body=entry_octets("S7"), fields=sent)
        pair.compare(tally, "another host", "GET", "/NORTH/counts", "NORTH", fields=sent,
                     host="evil.example")
        pair.compare(tally, "leave at another host", "OPTIONS", "/NORTH/counts",
                     fields=asking("GET"), host="evil.example")
        others(tally, pair)
        told = pair.ask("GET", "/NORTH/rs/studies?limit=1&x=1", "NORTH", fields=sent)
        tally.check("what the viewer may read", told.status == 200 and has_fields(
            told, access_control_allow_origin=VIEWER, access_control_expose_headers="Warning",
            vary="Origin") and "warning" in told.fields, told.head)
        told = pair.ask("OPTIONS", "/NORTH/rs/studies", fields=asking("GET"))
        tally.check("leave to look", told.status == 204 and not told.faults and has_fields(
            told, access_control_allow_origin=VIEWER, access_control_allow_methods="GET, HEAD",
            access_control_allow_headers="Accept, Authorization", access_control_max_age="600",
            vary="Origin"), told.head)
        pair.is_right(tally, "viewers")
    without(tally, folder)


def others(tally: Tally, pair: Pair) -> None:
    """Pages of other origins are refused as ever, and may read no refusal."""
    for origin in OTHERS:
        for method, target in (("GET", "/NORTH/counts"), ("OPTIONS", "/NORTH/counts"),
                               ("POST", "/NORTH/worklist")):
            pair.compare(tally, f"the origin {origin}", method, target, "NORTH",
                         fields=[f"Origin: {origin}", "Access-Control-Request-Method: GET"])
    own = f"http://{HOST}:{pair.port}"
    for fields in (list[str](), [f"Origin: {own}"], ["Sec-Fetch-Site: same-origin"]):
        for method in ("GET", "OPTIONS"):
            pair.compare(tally, f"the own page: {fields}", method, "/NORTH/counts", "NORTH",
                         fields=[*fields, "Access-Control-Request-Method: GET"])


def without(tally: Tally, folder: pathlib.Path) -> None:
    """Without the option no page of another origin may look."""
    with Pair(folder) as pair:
        for method in ("GET", "OPTIONS"):
            pair.compare(tally, "no viewer", method, "/NORTH/counts", "NORTH",
                         fields=asking("GET"))
