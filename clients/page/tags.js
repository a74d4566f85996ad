// Tags, and records in words.

/** Less than 0 where one is before the other. */
export const orderOf = (one, other) => one.time - other.time || one.micro - other.micro

/** A tag as it is written: its time, and its microstep where that is not 0. */
export const tagText = tag => (tag.micro ? `${tag.time}.${tag.micro}` : `${tag.time}`)

/** A record in words. */
export function recordText(record, names) {
  if (record.kind === "withdraw") return `origin ${record.origin} withdraws`
  if (record.kind === "event") return `${names.inputs[record.input]?.name ?? `input ${record.input}`} = ${record.value}`
  const withdrawn = record.withdrawn ? `, ${record.withdrawn} withdrawn` : ""
  return `${record.origin === null ? "all origins together announce" : `origin ${record.origin} announces`} ${record.events} ${record.events === 1 ? "event" : "events"}${withdrawn}`
}

/** What an answer to a record, or to an input, means. */
export function answerText(answer) {
  if (answer.time !== undefined) return `sent ${answer.place}: it counts at ${tagText(answer)}, and stands at place ${answer.place} of the log.`
  if (answer.isNew) return `taken ${answer.place}: it is new, and stands at place ${answer.place} of the log.`
  return `known ${answer.place}: it was there already, at place ${answer.place} of the log.`
}
