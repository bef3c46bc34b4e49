"""Requests that are malformed, hostile or of another kind: each gets an OperationOutcome, and leaves the service as
it was."""
import io
import json
import unittest

import sample
from sample import BRANCH, ROOT, SNOMED_CT, ecl, get, issue_of, release

EXPAND, VALIDATE = "/fhir/ValueSet/$expand", "/fhir/ValueSet/$validate-code"

# Texts that are no constraint, with the cause of each.
NO_CONSTRAINTS = (
    ("*) OR (*", "syntax"),
    ("*)\n(*", "syntax"),
    ("*\n*", "syntax"),
    ("*\x00", "token"),
    ("/*", "token"),
    ("* /*", "token"),
    ("*|", "token"),
    ("", "syntax"),
    (" ", "syntax"),
    ("(" * 100 + "*" + ")" * 100, "depth"),
    ("*{{C active=1}}", "unsupported"),
)


class Requests(unittest.TestCase):
    @classmethod
    def setUpClass(cls) -> None:
        cls.service = sample.shared()

    def tearDown(self) -> None:
        answer = get(self.service, EXPAND, url=ecl(f"<<{BRANCH}"), count=0)
        self.assertEqual(answer.json["expansion"]["total"], 1 + len(release.descendants(1)))

    def query(self, query: str, path: str = EXPAND, **environ: object) -> tuple:
        return issue_of(sample.call(self.service, {"PATH_INFO": path, "QUERY_STRING": query, **environ}))

    def test_paths_and_methods(self) -> None:
        for path in (
            "/fhir",
            "/fhir/",
            "/fhir/ValueSet",
            "/fhir/ValueSet/$expand/",
            "/page.html",
            "/../app.py",
            "/fhir/\x00",
            "//etc/passwd",
        ):
            self.assertEqual(self.query("", path), (404, "not-found"))
        for method in ("PUT", "DELETE", "PATCH", "OPTIONS", "get"):
            answer = sample.call(self.service, {"PATH_INFO": "/fhir/metadata", "REQUEST_METHOD": method})
            self.assertEqual((issue_of(answer), answer.headers["Allow"]), ((405, "not-supported"), "GET, HEAD, POST"))

    def test_the_method_head(self) -> None:
        for path in ("/", "/fhir/metadata", "/nothing"):
            whole, head = (
                sample.call(self.service, {"PATH_INFO": path, "REQUEST_METHOD": it}) for it in ("GET", "HEAD")
            )
            self.assertEqual((head.status, head.body), (whole.status, b""))
            self.assertEqual(head.headers["Content-Length"], str(len(whole.body)))

    def test_formats(self) -> None:
        for accept, status in (
            ("application/fhir+xml", 406),
            ("text/turtle", 406),
            ("application/fhir+json", 200),
            ("text/html, */*;q=0.8", 200),
            ("application/json", 200),
            ("", 200),
        ):
            answer = sample.call(self.service, {"PATH_INFO": "/fhir/metadata", "HTTP_ACCEPT": accept})
            self.assertEqual(answer.status, status)
        self.assertEqual(self.query("_format=xml", "/fhir/metadata"), (406, "not-supported"))
        answer = sample.call(
            self.service, {"PATH_INFO": "/fhir/metadata", "QUERY_STRING": "_format=json", "HTTP_ACCEPT": "text/html"}
        )
        self.assertEqual(answer.headers["Content-Type"], "application/fhir+json; charset=utf-8")

    def test_malformed_queries(self) -> None:
        for query in ("x", "url", "url=%ff%fe", "&".join(f"a{it}=1" for it in range(51))):
            self.assertEqual(self.query(query), (400, "invalid"))
        self.assertEqual(self.query("url=" + "x" * 70_000), (413, "too-long"))
        for query in (
            "url=http://snomed.info/sct?fhir_vs=ecl/%2",
            "url=http://snomed.info/sct?fhir_vs=ecl/%zz",
            "url=http://snomed.info/sct?fhir_vs=ecl/%25ff",
        ):
            self.assertEqual(self.query(query), (400, "invalid"))
        answer = sample.call(
            self.service,
            {"PATH_INFO": EXPAND, "QUERY_STRING": f"url=http://snomed.info/sct?fhir_vs=ecl/<<{BRANCH}|é|&count=1"},
        )
        self.assertEqual(sample.codes_of(answer), [BRANCH])

    def test_malformed_numbers(self) -> None:
        for number in ("-1", "+1", "1.0", "1e3", "x", " 1", "1\n", "\uff11", "2147483648", "9" * 30, "0x1", "1_0"):
            for name in ("count", "offset"):
                self.assertEqual(issue_of(get(self.service, EXPAND, url=ecl("*"), **{name: number})), (400, "invalid"))
        self.assertEqual(self.query("url=http://snomed.info/sct?fhir_vs&count=1&count=2"), (400, "invalid"))

    def test_malformed_bodies(self) -> None:
        deep = b"[" * 30_000
        for body, issue in (
            (b"", (400, "invalid")),
            (b"{}", (400, "invalid")),
            (b"[]", (400, "invalid")),
            (b"x", (400, "invalid")),
            (b"\xff\xfe", (400, "invalid")),
            (deep, (400, "invalid")),
            (b"null", (400, "invalid")),
            (b'{"resourceType":"Parameters","parameter":{}}', (400, "invalid")),
            (b'{"resourceType":"Parameters","parameter":[1]}', (400, "invalid")),
            (b'{"resourceType":"Parameters","parameter":[{"name":1,"valueUri":"x"}]}', (400, "invalid")),
            (b'{"resourceType":"Parameters","parameter":[{"name":"url"}]}', (400, "invalid")),
            (
                b'{"resourceType":"Parameters","parameter":[{"name":"url","valueUri":"x","valueCode":"y"}]}',
                (400, "invalid"),
            ),
            (b'{"resourceType":"Parameters","parameter":[{"name":"url","valueUri":{"a":1}}]}', (422, "not-supported")),
            (b'{"resourceType":"Parameters","parameter":[{"name":"url","valueUri":null}]}', (422, "not-supported")),
            (b'{"resourceType":"Parameters","parameter":[{"name":"url","valueUri":"\\ud800"}]}', (400, "invalid")),
            (
                b'{"resourceType":"Parameters","parameter":[{"name":"coding","valueCoding":{"code":1}}]}',
                (400, "invalid"),
            ),
            (
                b'{"resourceType":"Parameters","parameter":[{"name":"codeableConcept","valueCodeableConcept":{}}]}',
                (422, "not-supported"),
            ),
            (b'{"resourceType":"Parameters"}', (400, "required")),
            (b'{"resourceType":"ValueSet"}', (400, "invalid")),
            (b"x" * 70_000, (413, "too-long")),
        ):
            self.assertEqual(issue_of(sample.post(self.service, EXPAND, body)), issue, body[:80])
        many = [{"name": "url", "valueUri": "x"}] * 51
        body = json.dumps({"resourceType": "Parameters", "parameter": many}).encode()
        self.assertEqual(issue_of(sample.post(self.service, EXPAND, body)), (400, "invalid"))

    def test_headers_of_bodies(self) -> None:
        body = sample.body_of(url=("valueUri", ecl("*")))
        for kind in ("text/xml", "", "application/x-www-form-urlencoded", "application/fhir+xml"):
            self.assertEqual(
                issue_of(sample.post(self.service, EXPAND, body, CONTENT_TYPE=kind)), (415, "not-supported")
            )
        for length in ("", "-1", "x", "+5", "1_0", "\u0661"):
            self.assertEqual(
                issue_of(sample.post(self.service, EXPAND, body, CONTENT_LENGTH=length)), (411, "required")
            )
        self.assertEqual(
            issue_of(sample.post(self.service, EXPAND, body, CONTENT_LENGTH=str(10**12))), (413, "too-long")
        )
        self.assertEqual(issue_of(sample.post(self.service, EXPAND, body, CONTENT_LENGTH="20")), (400, "invalid"))
        for kind in ("application/json", "application/fhir+json; charset=utf-8", "APPLICATION/FHIR+JSON"):
            self.assertEqual(sample.post(self.service, EXPAND, body, CONTENT_TYPE=kind).status, 200)

    def test_a_body_that_does_not_arrive(self) -> None:
        class Broken(io.BytesIO):
            def read(self, *_: object) -> bytes:
                raise OSError

        environ = {"CONTENT_TYPE": "application/fhir+json", "CONTENT_LENGTH": "5", "wsgi.input": Broken()}
        self.assertEqual(self.query("", REQUEST_METHOD="POST", **environ), (400, "invalid"))

    def test_texts_that_are_no_constraint(self) -> None:
        for text, cause in NO_CONSTRAINTS:
            code, status = ("not-supported", 422) if cause == "unsupported" else ("invalid", 400)
            for path, more in (
                (EXPAND, {}),
                (EXPAND, {"filter": "concept"}),
                ("/explain", {}),
                (VALIDATE, {"code": str(ROOT), "system": SNOMED_CT}),
            ):
                answer = get(self.service, path, url=ecl(text), **more)
                self.assertEqual(issue_of(answer), (status, code), (path, text))
                extensions = {it["url"]: it for it in answer.json["issue"][0]["extension"]}
                if sample.IS_BUILT:
                    self.assertEqual(extensions["urn:hosecrag:cause"]["valueCode"], cause, text)
        self.assertEqual(issue_of(get(self.service, EXPAND, url=ecl("*" * 8193))), (413, "too-long"))

    def test_where_a_text_is_refused(self) -> None:
        answer = get(self.service, EXPAND, url=ecl("100005 XOR 101009"))
        (issue,) = answer.json["issue"]
        self.assertEqual(issue["expression"], ["url"])
        self.assertEqual(
            issue["extension"],
            [
                {"url": "urn:hosecrag:cause", "valueCode": "token"},
                {"url": "urn:hosecrag:byte-offset", "valueInteger": 7},
                {"url": "urn:hosecrag:character-offset", "valueInteger": 7},
            ],
        )
        answer = get(self.service, EXPAND, url=ecl("*{{C active=1}}"))
        found = {it["url"]: it for it in answer.json["issue"][0]["extension"]}
        self.assertEqual(found["urn:hosecrag:form"]["valueCode"], "filter")

    @unittest.skipUnless(sample.IS_BUILT, "the stand-in does not know where a text is refused")
    def test_characters_of_several_bytes(self) -> None:
        answer = get(self.service, EXPAND, url=ecl("* |naïve 😀| AND\n§"))
        extensions = answer.json["issue"][0]["extension"]
        self.assertEqual([it.get("valueInteger") for it in extensions], [None, 20, 16])

    def test_brackets(self) -> None:
        most = "(" * 63 + str(ROOT) + ")" * 63
        for path, more in (
            (EXPAND, {}),
            (EXPAND, {"filter": "concept"}),
            (VALIDATE, {"code": str(ROOT), "system": SNOMED_CT}),
        ):
            self.assertEqual(get(self.service, path, url=ecl(most), **more).status, 200)

    def test_metadata(self) -> None:
        statement = get(self.service, "/fhir/metadata").json
        self.assertEqual((statement["resourceType"], statement["fhirVersion"]), ("CapabilityStatement", "4.0.1"))
        terminology = get(self.service, "/fhir/metadata", mode="terminology").json
        self.assertEqual(terminology["resourceType"], "TerminologyCapabilities")
        self.assertEqual(terminology["codeSystem"][0]["version"][0]["code"], sample.VERSION)

    def test_explain(self) -> None:
        answer = get(self.service, "/explain", url=ecl(f"<<{BRANCH}"))
        self.assertEqual(answer.status, 200)
        self.assertEqual(sum(it["bound"] for it in answer.json["nodes"]), answer.json["bound"])
        self.assertEqual(
            [(it["depth"], it["text"]) for it in answer.json["nodes"]], [(0, "descendants-self"), (1, f"one {BRANCH}")]
        )

    def test_the_page(self) -> None:
        answer = get(self.service, "/")
        self.assertEqual((answer.status, answer.headers["Content-Type"]), (200, "text/html; charset=utf-8"))
        policy = answer.headers["Content-Security-Policy"]
        self.assertIn("default-src 'none'", policy)
        self.assertNotIn("unsafe", policy)
        self.assertNotIn(b"innerHTML", answer.body)


if __name__ == "__main__":
    unittest.main()
