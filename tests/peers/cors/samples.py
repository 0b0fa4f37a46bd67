"""Bodies of each kind that a page loads."""
import io
import wave
from pathlib import Path

PIXEL = bytes.fromhex("47494638396101000100800000ffffff00000021f90401000000002c00000000010001000002024401003b")
FONT = Path("/usr/share/fonts/truetype/dejavu/DejaVuSansMono.ttf")


def sound() -> bytes:
    data = io.BytesIO()
    with wave.open(data, "wb") as file:
        file.setnchannels(1)
        file.setsampwidth(1)
        file.setframerate(8000)
        file.writeframes(bytes(8000))
    return data.getvalue()


def bodies() -> dict[str, bytes]:
    return {"image/gif": PIXEL, "text/javascript": b"export default 1;", "text/css": b"p { color: red; }",
            "font/ttf": FONT.read_bytes() if FONT.exists() else b"", "audio/wav": sound(),
            "text/event-stream": b"data: x\n\n", "text/plain": b"text"}
