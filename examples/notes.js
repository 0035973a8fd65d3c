/** Field notes, no code: {import("./a.ts").A}  and {{import('./b.ts')}} and {import("{import('./c.ts')}")} */
