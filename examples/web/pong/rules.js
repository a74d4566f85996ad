// What plays in a player's place, as `?player=ann&rule=sweep`: which way to go at a tick, -1 up, 1 down. The first two look at
// nothing but the tick, so their score is known beforehand.

/** @type {Record<string, (tick: number, seen: { row: number, ball: number }) => number>} */
export const RULES = {
  sweep: tick => (tick % 10 < 5 ? 1 : -1),
  shuttle: tick => (tick % 10 < 5 ? -1 : 1),
  /** Steers towards the ball. */
  follow: (tick, { row, ball }) => Math.sign(ball - row),
}
