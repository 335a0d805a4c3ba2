cwlVersion: v1.2
class: Workflow
doc: A step scattered over all pairs of two arrays as arrays in an array, and a step scattered over the outer array.
requirements: {ScatterFeatureRequirement: {}}
inputs: {reads: 'File[]', mates: 'File[]'}
outputs:
  rows: {type: 'File[]', outputSource: row/made}
steps:
  pair: {run: one.cwl, scatter: [read, second], scatterMethod: nested_crossproduct, in: {read: reads, second: mates}, out: [made, log]}
  row: {run: stamp.cwl, scatter: read, in: {read: pair/made}, out: [made]}
