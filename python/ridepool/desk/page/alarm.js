// A sound for new trouble: two short tones. It is off until the operator switches it on, as browsers ask for that.

const TONES = [880, 660], SECONDS = 0.15;

export class Alarm {
  constructor() {
    this.context = null;
    this.rings = 0;
  }

  // Switches the sound on or off; switched on, it is heard once.
  turn(on) {
    if (this.context) this.context.close();
    this.context = on ? new AudioContext() : null;
    this.ring();
  }

  ring() {
    if (!this.context) return;
    this.rings++;
    TONES.forEach((hertz, at) => this.tone(hertz, this.context.currentTime + at * SECONDS));
  }

  tone(hertz, start) {
    const source = this.context.createOscillator(), level = this.context.createGain();
    source.frequency.value = hertz;
    level.gain.value = 0.2;
    source.connect(level).connect(this.context.destination);
    source.start(start);
    source.stop(start + SECONDS);
  }
}
