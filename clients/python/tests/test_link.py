"""Sessions over connections: the replies of test_session without numbers, bad peers, and the program behind a server."""
import select
import shutil
import socket
import ssl
import subprocess
import tempfile
import threading
import time
import unittest
from fractions import Fraction
from pathlib import Path
from typing import List
from unittest import mock

import lpd

from . import test_session
from .models import has_program
from .serving import HOST, SECONDS, Serve, Server, by_bytes, by_program, commands

MODELS = Path(__file__).resolve().parents[3] / "examples" / "models"


class Linked(unittest.TestCase):
    def link(self, serve: Serve, timeout: float = SECONDS) -> lpd.Session:
        server = Server(serve)
        session = lpd.connect(HOST, server.port, timeout)
        self.addCleanup(self.ended, server)
        self.addCleanup(session.transport.close)
        return session

    def ended(self, server: Server) -> None:
        server.join(SECONDS)
        self.assertFalse(server.is_alive(), "the server did not end")


class Replayed(Linked, test_session.Replayed):
    def session(self, *replies: str) -> lpd.Session:
        grouped: List[str] = []
        left = 0
        for line in (reply[2:] if reply[:2] in ("1", "1 ") else reply for reply in replies):
            words = line.split(" ")
            if left:
                grouped[-1] += f"{line}\n"
                left -= 1
            else:
                grouped.append(f"{line}\n")
                left = int(words[1]) if len(words) == 2 and words[0] in ("TEXT", "CERT", "WIDE") and words[1].isdigit() else 0
        return self.link(by_bytes(*(reply.encode("latin-1") for reply in grouped), stays=True))

    def test_the_reply_of_another_session(self) -> None:
        with self.assertRaisesRegex(lpd.Unexpected, "'1 OPTIMAL 1'"):
            self.link(by_bytes(b"1 OPTIMAL 1\n")).solve()

    def test_an_end_in_mid_command(self) -> None:
        session = self.link(by_bytes(b"LOADED 1 1\n"))
        session.load(test_session.TEXT)
        with self.assertRaises(lpd.LinkClosed):
            session.solve()


class BadPeers(Linked):
    def test_nobody_listens(self) -> None:
        with socket.create_server((HOST, 0)) as listener:
            port = listener.getsockname()[1]
        with self.assertRaisesRegex(lpd.ConnectFailed, f"there is no connection to {HOST}:{port}: Connection refused"):
            lpd.connect(HOST, port)

    def test_a_connect_that_is_not_answered(self) -> None:
        with mock.patch("socket.create_connection", side_effect=socket.timeout):
            with self.assertRaisesRegex(lpd.ConnectFailed, "within 3 seconds"):
                lpd.connect(HOST, 1, 3)

    def test_a_close_in_mid_reply(self) -> None:
        for reply in (b"", b"CERT 3", b"CERT 3\n", b"CERT 3\nOPTIMAL\nx x", b"CERT 3\nOPTIMAL\nx x 1\n"):
            with self.subTest(reply):
                session = self.link(by_bytes(reply))
                with self.assertRaisesRegex(lpd.LinkClosed, "closed the connection before it replied"):
                    session.certificate()
                with self.assertRaisesRegex(lpd.LinkClosed, "is closed"):
                    session.solve()

    def test_a_reset(self) -> None:
        def serve(link: socket.socket) -> None:
            by_bytes(b"")(link)
            link.setsockopt(socket.SOL_SOCKET, socket.SO_LINGER, b"\1\0\0\0\0\0\0\0")

        session = self.link(serve)
        with self.assertRaises(lpd.LinkClosed):
            session.solve()

    def test_silence(self) -> None:
        for answered, replies in ((0, ()), (0, (b"OPTIMAL",)), (1, (b"OPTIMAL 1\n", b"CERT 2\nOPTIMAL\n"))):
            with self.subTest(replies):
                session = self.link(by_bytes(*replies, stays=True))
                asks = [session.solve, session.certificate]
                for ask in asks[:answered]:
                    ask()
                session.transport.timeout = 0.3
                with self.assertRaisesRegex(lpd.LinkTimeout, "within 0.3 seconds"):
                    asks[answered]()
                with self.assertRaises(lpd.LinkClosed):
                    session.solve()

    def test_a_reply_that_drips(self) -> None:
        def serve(link: socket.socket) -> None:
            next(commands(link))
            for _ in range(100):
                link.sendall(b"O")
                time.sleep(0.05)

        with self.assertRaises(lpd.LinkTimeout):  # and not LinkClosed, after the last byte
            self.link(serve, 0.4).solve()

    def test_a_peer_that_does_not_read(self) -> None:
        is_over = threading.Event()
        session = self.link(lambda link: is_over.wait(), 0.5)
        self.addCleanup(is_over.set)
        with self.assertRaises(lpd.LinkTimeout):
            session.load(f"* {'x' * 10_000}\n" * 3000 + test_session.TEXT)

    def test_no_end_of_a_line_or_a_reply(self) -> None:
        def serve(link: socket.socket) -> None:
            next(commands(link))
            while True:
                link.sendall(b"x" * 1000)

        with self.assertRaisesRegex(lpd.LinkFailed, "without an end"):
            self.link(serve).solve()
        with mock.patch("lpd.link.LONGEST_REPLY", 1000), self.assertRaisesRegex(lpd.LinkFailed, "without an end"):
            self.link(by_bytes(b"TEXT 999999999\n" + b"x\n" * 600, stays=True)).write()

    def test_more_than_a_reply(self) -> None:
        session = self.link(by_bytes(b"OPTIMAL 1\nOPTIMAL 2\n", stays=True))
        self.assertEqual(session.solve(), lpd.Optimal(Fraction(1)))
        with self.assertRaisesRegex(lpd.LinkFailed, "when nothing was asked"):
            session.solve()

    def test_a_second_reply_that_comes_later(self) -> None:
        def serve(link: socket.socket) -> None:
            by_bytes(b"OPTIMAL 1\n")(link)
            time.sleep(0.1)
            link.sendall(b"OPTIMAL 2\n")
            link.recv(1)  # until the client closes the connection

        session = self.link(serve)
        self.assertEqual(session.solve(), lpd.Optimal(Fraction(1)))
        select.select([session.transport.socket], [], [], SECONDS)
        with self.assertRaisesRegex(lpd.LinkFailed, r"sent b'OPTIMAL 2\\n' when nothing was asked"):
            session.solve()

    def test_a_link_has_one_session(self) -> None:
        server = Server(by_bytes(b"BYE\n"))
        link = lpd.Link(HOST, server.port)
        session = lpd.Session(link)
        with self.assertRaises(ValueError):
            lpd.Session(link)
        session.close()
        self.assertIsNone(link.socket)
        self.ended(server)

    def test_an_error_in_the_block_closes_the_link(self) -> None:
        server = Server(by_bytes(stays=True))
        with self.assertRaises(KeyError), lpd.connect(HOST, server.port):
            raise KeyError
        self.ended(server)


@unittest.skipUnless(shutil.which("openssl"), "openssl is not on the path")
class Encrypted(Linked):
    """A server with a certificate for 127.0.0.1 that it signed itself."""

    @classmethod
    def setUpClass(cls) -> None:
        cls.folder = tempfile.TemporaryDirectory()
        cls.key, cls.ca = f"{cls.folder.name}/key", f"{cls.folder.name}/certificate"
        words = ["-newkey", "rsa:2048", "-nodes", "-keyout", cls.key, "-out", cls.ca, "-days", "2", "-subj", "/CN=lpd"]
        subprocess.run(["openssl", "req", "-x509", *words, "-addext", f"subjectAltName=IP:{HOST}"], check=True, capture_output=True)

    @classmethod
    def tearDownClass(cls) -> None:
        cls.folder.cleanup()

    def port_of(self, serve: Serve) -> int:
        context = ssl.SSLContext(ssl.PROTOCOL_TLS_SERVER)
        context.load_cert_chain(self.ca, self.key)

        def serves(link: socket.socket) -> None:
            with context.wrap_socket(link, server_side=True) as inner:
                serve(inner)

        server = Server(serves)
        self.addCleanup(self.ended, server)
        return server.port

    def test_a_session(self) -> None:
        port = self.port_of(by_bytes(b"OPTIMAL 1\n", b"CERT 1\nEND\n", b"BYE\n"))
        with lpd.connect(HOST, port, SECONDS, tls=True, ca=self.ca) as session:
            self.assertEqual((session.solve(), session.certificate()), (lpd.Optimal(Fraction(1)), ["END"]))

    def test_silence_and_a_close(self) -> None:
        with self.assertRaises(lpd.LinkTimeout):
            session = lpd.connect(HOST, self.port_of(by_bytes(b"OPT", stays=True)), SECONDS, ca=self.ca)
            session.transport.timeout = 0.5
            session.solve()
        with self.assertRaises(lpd.LinkClosed):
            lpd.connect(HOST, self.port_of(by_bytes(b"OPT")), SECONDS, ca=self.ca).solve()

    def test_a_certificate_that_nobody_vouches_for(self) -> None:
        with self.assertRaisesRegex(lpd.ConnectFailed, "is not encrypted as it should be: self-signed certificate"):
            lpd.connect(HOST, self.port_of(by_bytes()), SECONDS, tls=True)

    def test_another_host(self) -> None:
        with self.assertRaisesRegex(lpd.ConnectFailed, "not encrypted as it should be: Hostname mismatch"):
            lpd.connect("localhost", self.port_of(by_bytes()), SECONDS, ca=self.ca)

    def test_a_server_without_tls(self) -> None:
        server = Server(lambda link: link.sendall(b"ERR 1 WORD\n" * 100))
        self.addCleanup(self.ended, server)
        with self.assertRaises(lpd.ConnectFailed):
            lpd.connect(HOST, server.port, SECONDS, ca=self.ca)


@unittest.skipUnless(has_program(), "the program is not built")
class WithTheProgram(Linked):
    def test_a_session(self) -> None:
        session = self.link(by_program, 60)
        text = (MODELS / "diet.mps").read_text()
        with self.assertRaises(lpd.NoModel):
            session.solve()
        self.assertEqual(session.load(text), lpd.Loaded(3, 6))
        self.assertEqual(session.solve_checked(lpd.read_model(text))[0], lpd.Optimal(Fraction(185, 2)))
        session.set_rhs("energy", 2500)
        self.assertEqual(str(session.solve_checked()[0]), "OPTIMAL 120.625")
        self.assertEqual(session.how().start, lpd.Basis(0))
        with self.assertRaisesRegex(lpd.UnknownName, "in 'DELROW none'"):
            session.delete_row("none")
        with self.assertRaises(lpd.TextFault):
            session.load("ROWS\n N cost\n Q row\nENDATA\n")
        self.assertEqual(len(lpd.read_model(session.write()).columns), 6)
        session.close()

    def test_the_same_as_over_pipes(self) -> None:
        for path in sorted(MODELS.glob("*.mps")):
            is_fixed = ".fixed." in path.name
            with self.subTest(path.name), self.link(by_program, 60) as session, lpd.Session() as other:
                self.assertEqual(*(self.replies(each, path.read_text(), is_fixed) for each in (session, other)))

    def replies(self, session: lpd.Session, text: str, is_fixed: bool) -> List[object]:
        loaded = session.load(text, is_fixed)
        return [loaded, session.solve(), session.certificate(), session.how(), session.write()]
