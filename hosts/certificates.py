"""Certificates of an authority of one's own, by the program openssl."""
import os
import ssl
import subprocess

CURVE = ["-newkey", "ec", "-pkeyopt", "ec_paramgen_curve:prime256v1", "-nodes"]


def openssl(*words):
    subprocess.run(["openssl", *words], check=True, stderr=subprocess.DEVNULL)


class Authority:
    def __init__(self, folder):
        os.makedirs(folder, exist_ok=True)
        self.own, self.key = (os.path.join(folder, name) for name in ("ca.crt", "ca.key"))
        openssl("req", "-x509", *CURVE, "-keyout", self.key, "-out", self.own, "-subj", "/CN=authority", "-days", "30")

    def signs(self, folder, name, days=30):
        """A folder as --tls wants it, for somebody of this name."""
        os.makedirs(folder, exist_ok=True)
        key, asks, signed = (os.path.join(folder, file) for file in ("tls.key", "tls.csr", "tls.crt"))
        openssl("req", *CURVE, "-keyout", key, "-out", asks, "-subj", "/CN=x", "-addext", f"subjectAltName=DNS:{name}")
        openssl("x509", "-req", "-in", asks, "-CA", self.own, "-CAkey", self.key, "-CAcreateserial", "-days", str(days),
                "-copy_extensions", "copy", "-out", signed)
        with open(self.own, "rb") as own, open(os.path.join(folder, "ca.crt"), "wb") as copy:
            copy.write(own.read())
        return folder


def context(folder, side=ssl.PROTOCOL_TLS_CLIENT):
    """As Python has what is in such a folder."""
    found = ssl.SSLContext(side)
    found.load_verify_locations(os.path.join(folder, "ca.crt"))
    if os.path.exists(os.path.join(folder, "tls.crt")):
        found.load_cert_chain(os.path.join(folder, "tls.crt"), os.path.join(folder, "tls.key"))
    return found
