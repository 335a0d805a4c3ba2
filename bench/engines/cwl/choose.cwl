cwlVersion: v1.2
class: Workflow
doc: An ExpressionTool between two tools, for a workflow that runs it.
requirements: {InlineJavascriptRequirement: {}, MultipleInputFeatureRequirement: {}}
inputs: {reads: 'File[]'}
outputs:
  made: {type: File, outputSource: work/made}
steps:
  pick:
    in: {reads: reads}
    out: [last, count]
    run:
      class: ExpressionTool
      inputs: {reads: 'File[]'}
      outputs: {last: File, count: string}
      expression: '${ return {"last": inputs.reads[inputs.reads.length - 1], "count": "" + inputs.reads.length}; }'
  work: {run: stamp.cwl, in: {read: {source: [pick/last], linkMerge: merge_nested}, note: pick/count}, out: [made]}
