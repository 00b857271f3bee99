// Why a plan is refused with 7 or 8, worked out here from pattern and constraints alone. NOTHING IN THIS FILE IS
// PROVED: it words a refusal that the library has given, and no listing rests on it.

/** Who neighbours whom, either way round. */
function neighboursOf(count, edges) {
  const near = Array.from({ length: count }, () => new Set());
  for (const [from, to] of edges) {
    near[from].add(to);
    near[to].add(from);
  }
  return near.map((set) => [...set].sort((a, b) => a - b));
}

/** Every choice of one from each list, in order. */
function choices(lists) {
  return lists.reduce((had, list) => had.flatMap((chosen) => list.map((one) => [...chosen, one])), [[]]);
}

/** A pattern with its constraints, and the figures of the nodes covered so far. */
class Covering {
  constructor({ nodes, edges }, constraints) {
    Object.assign(this, { nodes, edges, constraints });
    this.near = neighboursOf(nodes.length, edges);
    this.figures = new Map();
  }

  /** The covered neighbours of a node that bear a label. */
  chosenFrom(node, label) {
    return this.near[node].filter((other) => this.figures.has(other) && this.nodes[other].label === label);
  }

  /** The ways to fetch a node: constraint, chosen nodes and figure, in the order that ties take. */
  ways(node) {
    return this.constraints.flatMap(({ keyLabels, label, most }, constraint) => {
      if (label !== this.nodes[node].label) return [];
      return choices(keyLabels.map((one) => this.chosenFrom(node, one))).map((chosen) => {
        const figure = chosen.reduce((product, one) => product * this.figures.get(one), BigInt(most));
        return { fetched: node, constraint, chosen, figure };
      });
    });
  }

  /** The smallest way for a node that is not covered; the lower node first among equals. */
  nextNode() {
    const uncovered = this.nodes.map((_, node) => node).filter((node) => !this.figures.has(node));
    return smallest(uncovered.flatMap((node) => this.ways(node)));
  }

  /** The smallest way for an edge: ties go to the lower constraint, then fetched end, then chosen nodes. */
  edgeWay(edge) {
    const ends = [...edge].sort((a, b) => a - b);
    const ways = ends.flatMap((end, place) => this.ways(end).filter(({ chosen }) => chosen.includes(ends[1 - place])));
    return smallest(ways.sort((one, other) => one.constraint - other.constraint || one.fetched - other.fetched));
  }
}

/** The first of the ways with the smallest figure. */
function smallest(ways) {
  return ways.reduce((best, way) => (best && best.figure <= way.figure ? best : way), null);
}

/** The plan as far as it goes, with figures as BigInt: rows, the bound, and what is not covered. */
export function coverOf(pattern, constraints) {
  const covering = new Covering(pattern, constraints), rows = [];
  for (let way; (way = covering.nextNode()); ) {
    covering.figures.set(way.fetched, way.figure);
    rows.push({ kind: 'node', number: way.fetched, ...way });
  }
  pattern.edges.forEach((edge, number) => {
    const way = covering.edgeWay(edge);
    if (way) rows.push({ kind: 'edge', number, ...way });
  });
  const has = (kind, number) => rows.some((row) => row.kind === kind && row.number === number);
  return {
    rows,
    bound: rows.reduce((sum, { figure }) => sum + figure, 0n),
    uncoveredNodes: pattern.nodes.map((_, node) => node).filter((node) => !has('node', node)),
    uncoveredEdges: pattern.edges.map((_, edge) => edge).filter((edge) => !has('edge', edge)),
  };
}

/** Why each node and edge that is not covered is not: constraint null where none is for the label. */
export function explain(pattern, constraints) {
  const { rows, uncoveredNodes, uncoveredEdges } = coverOf(pattern, constraints);
  const covering = new Covering(pattern, constraints);
  for (const row of rows) if (row.kind === 'node') covering.figures.set(row.number, row.figure);
  return [
    ...uncoveredNodes.flatMap((node) => perConstraint(covering, node, (one) => nodeReason(covering, node, one)))
      .map((row) => ({ kind: 'node', number: row.end, ...row })),
    ...uncoveredEdges.flatMap((number) => edgeReasons(covering, number)),
  ];
}

/** A row for each constraint for the label of an end, or one row where there is none. */
function perConstraint(covering, end, reason) {
  const rows = covering.constraints.flatMap((one, constraint) =>
    one.label === covering.nodes[end].label ? [{ end, constraint, ...reason(one) }] : [],
  );
  return rows.length ? rows : [{ end, constraint: null }];
}

/** The first label of S that no covered neighbour bears. */
function nodeReason(covering, node, { keyLabels }) {
  return { missing: keyLabels.find((label) => !covering.chosenFrom(node, label).length) };
}

export const NOT_IN_KEY = 1;
export const OTHER_UNCOVERED = 2;
export const OTHER_LABEL = 3;

function edgeReasons(covering, number) {
  const [from, to] = covering.edges[number];
  return [[from, to], [to, from]].flatMap(([end, other]) =>
    perConstraint(covering, end, (one) => edgeReason(covering, end, other, one)).map((row) => ({ kind: 'edge', number, ...row })),
  );
}

/** The first of three reasons: the other end's label is not in S, it is not covered, or another label is missing. */
function edgeReason(covering, end, other, { keyLabels }) {
  if (!keyLabels.includes(covering.nodes[other].label)) return { reason: NOT_IN_KEY };
  if (!covering.figures.has(other)) return { reason: OTHER_UNCOVERED };
  return { reason: OTHER_LABEL, missing: keyLabels.find((label) => !covering.chosenFrom(end, label).length) };
}

/** The row with the largest figure, and the rows whose N it is a product of, its own last. */
export function multiplying({ rows }, constraints) {
  const largest = rows.reduce((best, row) => (row.figure > best.figure ? row : best));
  const byNode = new Map(rows.filter(({ kind }) => kind === 'node').map((row) => [row.number, row]));
  const factors = (row) => [...row.chosen.flatMap((node) => factors(byNode.get(node))), row];
  const steps = factors(largest);
  const widest = steps.reduce((best, row) => (constraints[row.constraint].most > constraints[best.constraint].most ? row : best));
  return { largest, steps, widest };
}
