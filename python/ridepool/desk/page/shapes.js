// Shapes that a pen draws on the map's canvas around a point: triangles of stops, crosses, circles and texts.

export const INK = "#17212b", DARK = "#0b3c5d", BLUE = "#0072b2", RED = "#b3261e";

// A triangle with a text: up for a pickup, down for a drop-off.
export function drawStop(pen, x, y, kind, text) {
  const up = kind === "pick" ? 1 : -1;
  pen.beginPath();
  pen.moveTo(x, y - 11 * up);
  pen.lineTo(x + 11, y + 8 * up);
  pen.lineTo(x - 11, y + 8 * up);
  pen.closePath();
  pen.fillStyle = "#fff";
  pen.strokeStyle = DARK;
  pen.lineWidth = 2;
  pen.fill();
  pen.stroke();
  drawText(pen, text, x, y + 3 * up, 11, INK);
}

export function drawCross(pen, x, y, size, color) {
  pen.beginPath();
  pen.moveTo(x - size, y - size);
  pen.lineTo(x + size, y + size);
  pen.moveTo(x - size, y + size);
  pen.lineTo(x + size, y - size);
  pen.strokeStyle = color;
  pen.lineWidth = size / 2;
  pen.stroke();
}

// A bar across.
export function drawBar(pen, x, y, size) {
  pen.beginPath();
  pen.moveTo(x - size, y);
  pen.lineTo(x + size, y);
  pen.strokeStyle = DARK;
  pen.lineWidth = 3;
  pen.stroke();
}

export function drawCircle(pen, x, y, size, fill, line) {
  pen.beginPath();
  pen.arc(x, y, size, 0, 2 * Math.PI);
  pen.fillStyle = fill;
  pen.fill();
  if (!line) return;
  pen.lineWidth = 2;
  pen.strokeStyle = line;
  pen.stroke();
}

// Fills a circle from below up to a part of its height.
export function drawLevel(pen, x, y, size, part) {
  const angle = Math.acos(2 * part - 1);
  pen.beginPath();
  pen.arc(x, y, size, -Math.PI / 2 + angle, 1.5 * Math.PI - angle);
  pen.closePath();
  pen.fillStyle = BLUE;
  pen.fill();
}

export function drawText(pen, text, x, y, size, color, halo = false) {
  pen.font = `bold ${size}px system-ui, "DejaVu Sans", sans-serif`;
  pen.textAlign = "center";
  pen.textBaseline = "middle";
  if (halo) {
    pen.lineWidth = 3.5;
    pen.strokeStyle = "rgba(255, 255, 255, 0.9)";
    pen.strokeText(text, x, y);
  }
  pen.fillStyle = color;
  pen.fillText(text, x, y);
}
