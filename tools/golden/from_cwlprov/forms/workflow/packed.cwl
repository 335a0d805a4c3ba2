{
 "$graph": [
  {
   "class": "CommandLineTool",
   "id": "#cat",
   "baseCommand": "cat",
   "inputs": [
    {
     "type": {
      "type": "array",
      "items": "File"
     },
     "inputBinding": {
      "position": 1
     },
     "id": "#cat/parts"
    }
   ],
   "stdout": "merged.txt",
   "outputs": [
    {
     "type": "File",
     "id": "#cat/merged",
     "outputBinding": {
      "glob": "merged.txt"
     }
    }
   ]
  },
  {
   "class": "CommandLineTool",
   "id": "#cat1",
   "baseCommand": "cat",
   "inputs": [
    {
     "type": "File",
     "inputBinding": {
      "position": 1
     },
     "id": "#cat1/file"
    },
    {
     "type": [
      "null",
      "boolean"
     ],
     "id": "#cat1/flag"
    }
   ],
   "stdout": "merged.txt",
   "outputs": [
    {
     "type": "File",
     "id": "#cat1/merged",
     "outputBinding": {
      "glob": "merged.txt"
     }
    }
   ]
  },
  {
   "class": "CommandLineTool",
   "id": "#ls",
   "baseCommand": "ls",
   "inputs": [
    {
     "type": "Directory",
     "inputBinding": {
      "position": 1
     },
     "id": "#ls/dir"
    }
   ],
   "stdout": "merged.txt",
   "outputs": [
    {
     "type": "File",
     "id": "#ls/merged",
     "outputBinding": {
      "glob": "merged.txt"
     }
    }
   ]
  },
  {
   "class": "Workflow",
   "id": "#main",
   "requirements": [
    {
     "class": "InlineJavascriptRequirement"
    },
    {
     "class": "MultipleInputFeatureRequirement"
    },
    {
     "class": "ScatterFeatureRequirement"
    },
    {
     "class": "StepInputExpressionRequirement"
    },
    {
     "class": "SubworkflowFeatureRequirement"
    }
   ],
   "inputs": [
    {
     "type": {
      "type": "array",
      "items": "boolean"
     },
     "id": "#main/flags"
    },
    {
     "type": {
      "type": "array",
      "items": "File"
     },
     "id": "#main/none"
    },
    {
     "type": {
      "type": "array",
      "items": "File"
     },
     "id": "#main/reads"
    },
    {
     "type": "string",
     "id": "#main/word"
    }
   ],
   "outputs": [
    {
     "type": {
      "type": "array",
      "items": "File"
     },
     "outputSource": "#main/empty/merged",
     "id": "#main/e"
    },
    {
     "type": "File",
     "outputSource": "#main/fin/merged",
     "id": "#main/final"
    },
    {
     "type": "Directory",
     "outputSource": "#main/mkdir/dir",
     "id": "#main/made"
    },
    {
     "type": {
      "type": "array",
      "items": "int"
     },
     "outputSource": "#main/size/n",
     "id": "#main/sizes"
    },
    {
     "type": {
      "type": "array",
      "items": "File"
     },
     "outputSource": "#main/maybe/merged",
     "pickValue": "all_non_null",
     "id": "#main/w"
    }
   ],
   "steps": [
    {
     "run": "#pair",
     "scatter": [
      "#main/cross/a",
      "#main/cross/b"
     ],
     "scatterMethod": "flat_crossproduct",
     "in": [
      {
       "source": "#main/reads",
       "id": "#main/cross/a"
      },
      {
       "source": "#main/use/merged",
       "id": "#main/cross/b"
      }
     ],
     "out": [
      "#main/cross/merged"
     ],
     "id": "#main/cross"
    },
    {
     "run": "#cat1",
     "scatter": "#main/empty/file",
     "in": [
      {
       "source": "#main/none",
       "id": "#main/empty/file"
      }
     ],
     "out": [
      "#main/empty/merged"
     ],
     "id": "#main/empty"
    },
    {
     "run": "#cat",
     "in": [
      {
       "source": [
        "#main/cross/merged",
        "#main/maybe/merged"
       ],
       "linkMerge": "merge_flattened",
       "pickValue": "all_non_null",
       "id": "#main/fin/parts"
      }
     ],
     "out": [
      "#main/fin/merged"
     ],
     "id": "#main/fin"
    },
    {
     "run": "#ls",
     "in": [
      {
       "source": "#main/mkdir/dir",
       "id": "#main/ls/dir"
      }
     ],
     "out": [
      "#main/ls/merged"
     ],
     "id": "#main/ls"
    },
    {
     "run": "#cat1",
     "scatter": [
      "#main/maybe/file",
      "#main/maybe/flag"
     ],
     "scatterMethod": "dotproduct",
     "when": "$(inputs.flag)",
     "in": [
      {
       "source": "#main/reads",
       "id": "#main/maybe/file"
      },
      {
       "source": "#main/flags",
       "id": "#main/maybe/flag"
      }
     ],
     "out": [
      "#main/maybe/merged"
     ],
     "id": "#main/maybe"
    },
    {
     "run": "#mkdir",
     "in": [
      {
       "source": "#main/reads",
       "valueFrom": "$(self[0])",
       "id": "#main/mkdir/file"
      },
      {
       "source": "#main/fin/merged",
       "valueFrom": "$(self.basename)",
       "id": "#main/mkdir/name"
      }
     ],
     "out": [
      "#main/mkdir/dir"
     ],
     "id": "#main/mkdir"
    },
    {
     "run": "#size",
     "scatter": "#main/size/file",
     "in": [
      {
       "source": "#main/reads",
       "id": "#main/size/file"
      }
     ],
     "out": [
      "#main/size/n",
      "#main/size/same"
     ],
     "id": "#main/size"
    },
    {
     "run": "#useint",
     "scatter": "#main/use/n",
     "in": [
      {
       "source": "#main/size/n",
       "id": "#main/use/n"
      }
     ],
     "out": [
      "#main/use/merged"
     ],
     "id": "#main/use"
    }
   ]
  },
  {
   "class": "CommandLineTool",
   "id": "#mkdir",
   "baseCommand": [
    "sh",
    "-c",
    "mkdir d; cp \"$0\" d/x; cp \"$0\" d/y"
   ],
   "inputs": [
    {
     "type": "File",
     "inputBinding": {
      "position": 1
     },
     "id": "#mkdir/file"
    },
    {
     "type": "string",
     "inputBinding": {
      "position": 2
     },
     "id": "#mkdir/name"
    }
   ],
   "outputs": [
    {
     "type": "Directory",
     "outputBinding": {
      "glob": "d"
     },
     "id": "#mkdir/dir"
    }
   ]
  },
  {
   "class": "CommandLineTool",
   "id": "#pair",
   "baseCommand": "cat",
   "inputs": [
    {
     "type": "File",
     "inputBinding": {
      "position": 1
     },
     "id": "#pair/a"
    },
    {
     "type": "File",
     "inputBinding": {
      "position": 2
     },
     "id": "#pair/b"
    }
   ],
   "stdout": "merged.txt",
   "outputs": [
    {
     "type": "File",
     "id": "#pair/merged",
     "outputBinding": {
      "glob": "merged.txt"
     }
    }
   ]
  },
  {
   "class": "CommandLineTool",
   "id": "#size",
   "requirements": [
    {
     "class": "InlineJavascriptRequirement"
    }
   ],
   "baseCommand": [
    "sh",
    "-c",
    "wc -c < \"$0\" > n.txt; cp \"$0\" same.txt"
   ],
   "inputs": [
    {
     "type": "File",
     "inputBinding": {
      "position": 1
     },
     "id": "#size/file"
    }
   ],
   "outputs": [
    {
     "type": "int",
     "outputBinding": {
      "glob": "n.txt",
      "loadContents": true,
      "outputEval": "$(parseInt(self[0].contents))"
     },
     "id": "#size/n"
    },
    {
     "type": "File",
     "outputBinding": {
      "glob": "same.txt"
     },
     "id": "#size/same"
    }
   ]
  },
  {
   "class": "CommandLineTool",
   "id": "#useint",
   "baseCommand": "echo",
   "inputs": [
    {
     "type": "int",
     "inputBinding": {
      "position": 1
     },
     "id": "#useint/n"
    }
   ],
   "stdout": "merged.txt",
   "outputs": [
    {
     "type": "File",
     "id": "#useint/merged",
     "outputBinding": {
      "glob": "merged.txt"
     }
    }
   ]
  }
 ],
 "cwlVersion": "v1.2"
}