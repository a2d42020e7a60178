"""The bytes of requests and of the answers to them."""

PHRASES = {
    200: "OK",
    201: "Created",
    204: "No Content",
    400: "Bad Request",
    401: "Unauthorized",
    403: "Forbidden",
    404: "Not Found",
    405: "Method Not Allowed",
    406: "Not Acceptable",
    409: "Conflict",
    413: "Payload Too Large",
    422: "Unprocessable Entity",
    429: "Too Many Requests",
    500: "Internal Server Error",
    503: "Service Unavailable",
}


def is_session(body):
    """Whether this is the body that gives the token of a session."""
    return isinstance(body, str) and body.startswith('{"access_token":')


def bytes_of(body):
    """The bytes of a body, which is a text or an object, or of which there is nothing but its length."""
    return body.encode() if isinstance(body, str) else body if isinstance(body, bytes) else b""


def head_of(status, body):
    """The head of an answer, from its status line to its empty line."""
    lines = [f"HTTP/1.1 {status} {PHRASES[status]}"]
    if isinstance(body, bytes):
        lines.append("content-type: application/octet-stream")
    elif isinstance(body, str) and body:
        lines.append("content-type: application/json")
    if body is not None:
        lines.append(f"content-length: {body if isinstance(body, int) else len(bytes_of(body))}")
    if is_session(body):
        lines += ["cache-control: no-store", "pragma: no-cache"]
    return "\r\n".join([*lines, "", ""]).encode()


def message_of(method, target, fields, content):
    lines = [f"{method} {target} HTTP/1.1", "host: localhost", *(f"{name}: {value}" for name, value in fields)]
    return "\r\n".join([*lines, f"content-length: {len(content)}", "", ""]).encode() + content
