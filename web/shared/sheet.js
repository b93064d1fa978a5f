/** A day's sheet, read from the exact text that the service writes. */

const HEADS = [
  [
    /^Window (\d+) confirmed (\d+) of (\d+)$/,
    (sheet, [window, , capacity]) => sheet.windows.push(
      { window: Number(window), capacity: Number(capacity), pledges: [] }
    ),
  ],
  [
    /^Pledge (\d+) window (\d+)$/,
    (sheet, [number, window]) => sheet.asked.push({ number: Number(number), window: Number(window) }),
  ],
  [
    /^Pledge (\d+)$/,
    (sheet, [number]) => (sheet.inEnds ? sheet.ends : sheet.windows.at(-1).pledges).push(Number(number)),
  ],
  [/^Asked \d+$/, () => {}],
  [/^Ends \d+$/, (sheet) => { sheet.inEnds = true; }],
  [/^Day sheet (\S+)$/, (sheet, [day]) => { sheet.day = day; }],
];

/** The day, the windows with their confirmed pledges, what was asked for, and the pledges whose period ends. */
export function readSheet(text) {
  const sheet = { day: null, windows: [], asked: [], ends: [], inEnds: false };
  for (const line of text.split("\n").slice(0, -1)) {
    const [head, read] = HEADS.find(([form]) => form.test(line)) ?? [];
    if (!head) throw new Error(`no line of a sheet: ${line}`);
    read(sheet, head.exec(line).slice(1));
  }
  return sheet;
}
